"""The version of the module: the one place where it is said."""

VERSION = "0.7.0"
