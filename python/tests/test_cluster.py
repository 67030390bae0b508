"""Replications by a cluster of real processes: the same frames, whatever happens to a worker."""

import os
import pickle
import signal

import pytest

from twarp import LimitFault, Network, NetworkError, ProgramMissing, replicate, sweep
from twarp.distributions import exponential
from twarp.library import server, source

distributed = pytest.importorskip("distributed")

# The cluster's own sockets and event loops end when its processes do.
pytestmark = [
    pytest.mark.filterwarnings("ignore::ResourceWarning"),
    pytest.mark.filterwarnings("ignore::pytest.PytestUnraisableExceptionWarning"),
    pytest.mark.filterwarnings("ignore::DeprecationWarning"),
]


@pytest.fixture(scope="module")
def client(tmp_path_factory):
    folder = str(tmp_path_factory.mktemp("dask"))
    with distributed.LocalCluster(
        n_workers=2, threads_per_worker=1, processes=True, dashboard_address=None, local_directory=folder
    ) as cluster:
        with distributed.Client(cluster) as client:
            yield client


def make(seeds):
    network = Network().add("in", source(exponential(50, 100), seed=seeds["in"]))
    return network.add("desk", server(exponential(40, 100), seed=seeds["desk"])).couple("in", "desk")


def same(here, there):
    assert here.equals(there) and here.dtypes.equals(there.dtypes)
    assert here.to_csv().encode() == there.to_csv().encode()
    assert pickle.dumps(here) == pickle.dumps(there)


def pids(client):
    return client.run(os.getpid)


def test_workers_are_processes_of_their_own(client):
    assert len(set(pids(client).values()) | {os.getpid()}) == 3


def test_a_cluster_gives_the_frame_of_the_pool(client):
    here = replicate(make, 12, 20_000, warmup=2_000, seed=3, progress=False)
    same(here, replicate(make, 12, 20_000, warmup=2_000, seed=3, progress=False, client=client))


def test_a_sweep_by_a_cluster_gives_the_same_frame(client):
    def at(seeds, servers):
        network = Network().add("in", source(exponential(50, 100), seed=seeds["in"]))
        return network.add("desk", server(exponential(90, 100), seed=seeds["desk"], servers=servers)).couple("in", "desk")

    here = sweep(at, {"servers": [2, 3]}, 5, 20_000, progress=False)
    same(here, sweep(at, {"servers": [2, 3]}, 5, 20_000, progress=False, client=client))


def test_a_worker_that_is_killed_costs_its_tasks_again_and_nothing_else(client):
    n, until = 150, 200_000
    before = pids(client)
    killed = []

    def deadly(seeds):
        # networks are made as earlier runs end: so this is in the midst of the work
        if seeds.replication == 80:
            victim = sorted(before)[0]
            os.kill(before[victim], signal.SIGKILL)
            killed.append(victim)
        return make(seeds)

    there = replicate(deadly, n, until, warmup=1_000, seed=4, progress=False, client=client)
    assert len(killed) == 1
    client.wait_for_workers(2, timeout=60)
    assert before[killed[0]] not in pids(client).values()
    same(replicate(make, n, until, warmup=1_000, seed=4, progress=False), there)


def test_faults_come_back_from_workers_as_they_are(client):
    def wrong(seeds):
        return make(seeds).couple("desk", "nobody")

    with pytest.raises(NetworkError) as caught:
        replicate(wrong, 3, 1_000, progress=False, client=client)
    assert caught.value.number == 5

    def endless(seeds):
        network = Network(micro_limit=4).add("a", "relay", delay=0).add("b", "relay", delay=0)
        return network.couple("a", "b").couple("b", "a").input(3, "a", 1)

    with pytest.raises(LimitFault) as limit:
        replicate(endless, 3, 1_000, progress=False, client=client)
    assert limit.value.tick == 3 and limit.value.limit == "microstep"
    # and the cluster goes on
    assert len(replicate(make, 2, 1_000, progress=False, client=client)) > 0


def test_workers_without_the_program_say_so(client):
    says = "import os; os.environ['TWARP'] = {!r}".format
    client.run(exec, says("/nowhere/twarp"))
    try:
        with pytest.raises(ProgramMissing, match="/nowhere/twarp"):
            replicate(make, 2, 1_000, progress=False, client=client)
    finally:
        client.run(exec, says(os.environ["TWARP"]))
    assert len(replicate(make, 2, 1_000, progress=False, client=client)) > 0
