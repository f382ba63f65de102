"""Tessellates a patch by the Vulkan rules, with a library whose every function is proved.

    >>> import yoktvarim
    >>> patch = yoktvarim.Triangles(outer=(1, 1, 1), inner=2)
    >>> mesh = yoktvarim.mesh(patch)
    >>> mesh
    Mesh(4 points, 9 indices)
    >>> mesh.points()[3]
    (65536, 65536, 65536)
    >>> list(mesh.indices)
    [0, 1, 3, 1, 2, 3, 2, 0, 3]

An answer is always an object that is named for what happened, never a number:

    >>> yoktvarim.mesh(yoktvarim.Isolines(outer=(0, 1)))
    Discarded()
"""

__version__ = "0.1.0"  # tools/version writes this line

# What callers use; the modules below have no other public names.

from .answers import (
    Answer,
    BadTop,
    Clamp,
    Clamps,
    Discarded,
    IndicesDrawn,
    Measured,
    Mesh,
    NoRoomForIndices,
    NoRoomForVertices,
    PointsDrawn,
)
from .check import Accepted, Fault, check_mesh
from .compare import Compared, Difference, LeftRefused, MeshFault, RightRefused, Side, What, compare_meshes
from .draw import INDEX_WORDS, VERTEX_WORDS, draw_indices, draw_points, measure, mesh
from .floats import FloatsDrawn, NoRoomForFloats, draw_with_floats
from .job import BadTopInRecord, CutRecord, Job, JobWritten, NotAJob, Record, UnknownSetting, UnknownVersion, Version, read_job, write_job
from .library import LibraryMismatch, LibraryNotFound
from .patch import (
    GREATEST_TOP,
    ONE_IN_QUADS,
    ONE_IN_TRIANGLES,
    DomainOrigin,
    Isolines,
    Quads,
    Settings,
    Spacing,
    Triangles,
    VertexOrder,
)
from .recording import AllAgree, CutEntry, Differs, NotARecording, Outcome, replay
from .shared import BadState, Cleared, Designer, PartDrawn, Quota, QuotasTooLarge, Shared, TooManyPoints
