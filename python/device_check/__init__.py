"""Judges the meshes that a graphics device cut, by the proved calls of the module yoktvarim: the commands check_device, mesh_text and
mesh_obj of tools/."""
