"""The tests of cpi-tools, tool by tool, and of tools/."""
