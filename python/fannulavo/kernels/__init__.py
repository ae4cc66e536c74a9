"""Kernels in Python: a function that is marked with @kernel becomes instructions of the machine of docs/machine.md."""

from fannulavo.kernels.context import Seen
from fannulavo.kernels.inputs import Input
from fannulavo.kernels.kernel import Kernel, document, kernel
from fannulavo.kernels.running import run
from fannulavo.kernels.simulation import SimulatedRun

__all__ = ["Input", "Kernel", "Seen", "SimulatedRun", "document", "kernel", "run"]
