"""A sweep on a cluster of Dask: `python3 -m tests.dask_sweep MODEL`, run by test_sweep.py where Dask is installed.

The cluster is two worker processes on this machine; for a real one only the line that makes the client differs.
"""
import logging
import sys

from distributed import Client, LocalCluster

import jirvuntsag as jv


def main():
    """Runs the same sweep here and on two workers, in both ways that items can be given."""
    model = jv.Model.load(sys.argv[1])

    def slow(ms):
        return model.replace(facts=[fact._replace(latency=ms) for fact in model.facts])

    expected = [row.as_dict() for row in jv.sweep(range(1_500), slow)]
    logging.getLogger("distributed").setLevel(logging.ERROR)
    workers = {"n_workers": 2, "threads_per_worker": 1, "processes": True}
    with LocalCluster(**workers, dashboard_address=None) as cluster, Client(cluster) as client:
        executor = client.get_executor()
        made = jv.sweep(range(1_500), slow, executor=executor, events=["stop"])
        given = jv.sweep([slow(ms) for ms in range(1_500)], executor=executor)
        bare = jv.sweep([model] * 10, executor=client)
        workers = len(client.scheduler_info()["workers"])
    assert [row.as_dict() for row in made] == expected and [row.as_dict() for row in given] == expected
    assert {len(row.events) for row in made} == {1} and {row.clock for row in bare} == {550}
    print(f"{workers} workers, {len(made) + len(given)} rows alike")


if __name__ == "__main__":
    main()
