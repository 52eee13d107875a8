"""The month before it is frozen, its freeze, and changes that would affect it.

All of it works on copies of the office's file. The program shows the effect, since it freezes the month there.
"""
