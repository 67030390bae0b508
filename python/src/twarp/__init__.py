"""twarp: networks of Parallel DEVS models, simulated by the program of that name.

This package is a client: it starts the program, hands it a network and reads what it answers as data
frames and pictures. All simulation is the program's. Times are whole ticks.

>>> import twarp
>>> network = twarp.Network().add("g", "gen", period=2, value=5).add("t", "tally").couple("g", "t")
>>> twarp.simulate(network, until=5).stats().figures["last"].to_dict()
{('g', 'count'): 2, ('t', 'count'): 2, ('t', 'sum'): 10, ('t', 'last'): 5}
"""

from . import distributions, library
from .errors import (
    LimitFault,
    MemoryRefused,
    NetworkError,
    NetworkWarning,
    ProgramError,
    ProgramFailed,
    ProgramKilled,
    ProgramMissing,
    ProgramTooOld,
    RequestError,
    TwarpError,
)
from .experiments import NotPrecise, SameSeed, Seeds, compare, processors, ratio, replicate, summary, sweep, until_precise
from .network import Network, Size
from .pictures import Picture, picture_of_time_warp
from .run import Item, Record, Run, Stats, simulate

__version__ = "0.1.0"

__all__ = [
    "Item",
    "LimitFault",
    "MemoryRefused",
    "Network",
    "NetworkError",
    "NetworkWarning",
    "NotPrecise",
    "Picture",
    "ProgramError",
    "ProgramFailed",
    "ProgramKilled",
    "ProgramMissing",
    "ProgramTooOld",
    "Record",
    "RequestError",
    "Run",
    "SameSeed",
    "Seeds",
    "Size",
    "Stats",
    "TwarpError",
    "compare",
    "distributions",
    "library",
    "picture_of_time_warp",
    "processors",
    "ratio",
    "replicate",
    "simulate",
    "summary",
    "sweep",
    "until_precise",
]
