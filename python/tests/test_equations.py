"""The equations for activations and latencies, beside printed figures."""
import math
import unittest

import jirvuntsag as jv

# D. Gall's thesis of 2013, section 5.1, the trace of the counting model with the subsymbolic layer (times in seconds, cut
# after four digits): when each request was started, and when its fact was put into the buffer
PRINTED = [(0.05, 0.0974), (0.1974, 0.2575), (0.3075, 0.3657), (0.4157, 0.5029)]

# For each request the time since its fact was met, which counts for its base level (2.2), and the fans of those of the four
# sources in the goal that its fact holds (2.4, with S = 2, section 4.9.1); the first fact holds none. For the third the
# printed time is that of the meeting at 0.1474 alone, when the fact went back to memory.
REQUESTS = [(0.05, []), (0.1974, [3, 3]), (0.3075 - 0.1474, [3, 4]), (0.4157, [3, 3])]


class Printed(unittest.TestCase):
    """Figures of the thesis. It does not print its latency factor: the first figure gives it, and the others follow."""

    def setUp(self):
        start, end = PRINTED[0]
        self.factor = (end - start) * math.exp(jv.base_level([REQUESTS[0][0]]))

    def activation(self, age, fans):
        """The activation of the fact of a request."""
        return jv.spread(jv.base_level([age]), [jv.strength(fan) for fan in fans], sources=4)

    def test_the_latencies_of_section_5_1(self):
        for (start, end), (age, fans) in zip(PRINTED, REQUESTS):
            ms = jv.latency(self.activation(age, fans), self.factor)
            # half a ms for the whole number, and what was cut from the printed times and so from the factor
            self.assertAlmostEqual(ms, 1000 * (end - start), delta=0.5 + 0.3)

    def test_the_factor_is_that_of_equation_2_6(self):
        self.assertAlmostEqual(self.factor, jv.latency_factor(-0.5), delta=0.0005)

    def test_a_run_has_the_times_of_section_5_1(self):
        """The retrievals one after the other, each between two firings, as the trace has them."""
        latencies = [jv.latency(self.activation(*request), self.factor) for request in REQUESTS]
        facts = [jv.Fact("step", {"at": at, "then": at + 1}, 0, ms) for at, ms in enumerate(latencies)]
        ask = jv.Rule("ask", ["=goal> step at ?n then nil"], ["=goal> then asked", "+retrieval> step at ?n"])
        tests, actions = ["=goal> step then asked", "=retrieval> step then ?m"], ["=goal> at ?m then nil", "-retrieval>"]
        buffers = {"goal": jv.Buffer("step", {"at": 0}), "retrieval": None}
        model = jv.Model.build({"step": ["at", "then"]}, buffers, facts, [ask, jv.Rule("go-on", tests, actions)])
        waits = [event for event in model.open().steps(12) if event.kind == "wait"]
        self.assertEqual([event.ms for event in waits], latencies)
        # the trace has as many firings before its first two requests; the clocks differ by what is rounded
        self.assertAlmostEqual(waits[0].clock, 97.4, delta=0.6)
        self.assertAlmostEqual(waits[1].clock, 257.5, delta=1.2)


class Equations(unittest.TestCase):
    """What the functions take."""

    def test_a_higher_activation_is_never_slower(self):
        latencies = [jv.latency(tenth / 10, 0.7, 0.9) for tenth in range(-40, 60)]
        self.assertEqual(latencies, sorted(latencies, reverse=True))

    def test_a_failure_takes_as_long_as_a_fact_at_the_threshold(self):
        self.assertEqual(jv.failure_latency(-1.2, 0.5, 0.8), jv.latency(-1.2, 0.5, 0.8))

    def test_what_no_image_holds(self):
        for activation in -5, -800, -1e300:
            with self.assertRaisesRegex(ValueError, "is over 65,535 ms|finite"):
                jv.latency(activation)
        self.assertEqual(jv.latency(1e300), 0)
        self.assertEqual(jv.latency(-4.18), 65_366)
        for activation in 33, -33, 1e300:
            with self.assertRaisesRegex(ValueError, "from -32.768"):
                jv.level(activation)

    def test_what_is_no_number(self):
        for call in jv.latency, jv.failure_latency, jv.latency_factor, jv.level, jv.strength:
            for number, error in ("x", TypeError), (None, TypeError), (math.nan, ValueError), (math.inf, ValueError):
                with self.subTest(call=call.__name__, number=number), self.assertRaises(error):
                    call(number)
        for call, arguments in (jv.latency, (0, -1)), (jv.strength, (0.5,)), (jv.base_level, ([],)), (jv.base_level, ([0],)):
            with self.assertRaises(ValueError):
                call(*arguments)
        with self.assertRaisesRegex(ValueError, "fewer"):
            jv.spread(0, [1, 2], sources=1)
