"""Datasets of the ViSUS IDX format as numpy arrays.

`open` reads a dataset, by the program idxtool on this machine or from a server of it; `write` writes a timestep; `serve`
starts a server. The program is `idxtool` on the PATH, or what the environment variable IDXTOOL says.

Axes are counted as the format counts them: axis 0 is the fastest one. A numpy array has its fastest axis last. So a box,
a level's strides and coordinates go by axis, axis 0 first; the shape of an array goes the other way round, with the
components of a sample behind. Both ends of a box are inclusive.
"""
from . import errors
from .dataset import Dataset, open
from .errors import ChangedError, IdxtoolError, MissingTimestep, ProgramError, ServerError
from .fieldarray import FieldArray
from .layout import Box, Field, Header
from .program import program
from .serving import Server, serve
from .writing import write

__all__ = ["Box", "ChangedError", "Dataset", "Field", "FieldArray", "Header", "IdxtoolError", "MissingTimestep", "ProgramError", "Server",
           "ServerError", "errors", "open", "program", "serve", "write"]
__version__ = "0.1.0"
