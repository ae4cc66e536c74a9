"""Kernels in Python, live sessions of BSP programs, their reports, and pictures of them.

`kernel` makes a BSP program of a function. A `Session` starts a built tool on a document, or on a kernel and its input,
and keeps it ready for edits; each batch of edits is answered by a `Report`. `read_report` reads the reports that tools
write, and `write_report` writes them back. `fannulavo.pictures` draws them; it alone needs matplotlib.
"""

from fannulavo.causes import Causes, Cost, DeliveryCauses, Place, TurnCauses, UpdateCost
from fannulavo.edits import Argument, Edit, Limit, Prices, Word
from fannulavo.errors import (
    BadMemories,
    BadWord,
    CodeTooLong,
    EndedTurn,
    Error,
    Interrupted,
    KernelError,
    KernelFaulted,
    MalformedReport,
    NameNotSet,
    NoSuchPlace,
    NothingToUndo,
    NotInKernels,
    NotRead,
    Recursion,
    Refused,
    SessionClosed,
    ToolEnded,
    ToolNotBuilt,
    ToolWithoutKernels,
    TooManyRegisters,
)
from fannulavo.kernels import Input, Kernel, Seen, SimulatedRun, document, kernel, run
from fannulavo.places import Area, Get, Message, Put, Send, Store, Turn, View
from fannulavo.reading import read_report
from fannulavo.reports import Block, Refusal, Report, Status, Unread
from fannulavo.session import Session
from fannulavo.writing import write_report

__all__ = [
    "Area",
    "Argument",
    "BadMemories",
    "BadWord",
    "Block",
    "Causes",
    "CodeTooLong",
    "Cost",
    "DeliveryCauses",
    "Edit",
    "EndedTurn",
    "Error",
    "Get",
    "Input",
    "Interrupted",
    "Kernel",
    "KernelError",
    "KernelFaulted",
    "Limit",
    "MalformedReport",
    "Message",
    "NameNotSet",
    "NoSuchPlace",
    "NotInKernels",
    "NotRead",
    "NothingToUndo",
    "Place",
    "Prices",
    "Put",
    "Recursion",
    "Refusal",
    "Refused",
    "Report",
    "Seen",
    "Send",
    "Session",
    "SessionClosed",
    "SimulatedRun",
    "Status",
    "Store",
    "ToolEnded",
    "ToolNotBuilt",
    "ToolWithoutKernels",
    "TooManyRegisters",
    "Turn",
    "TurnCauses",
    "Unread",
    "UpdateCost",
    "View",
    "Word",
    "document",
    "kernel",
    "read_report",
    "run",
    "write_report",
]
