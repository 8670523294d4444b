"""What the command `league` is made of: texts read and written around the program futmax.

Nothing here decides a verdict. The modules make the program's input by names, look at it before it
is sent, and say in words what is wrong with it.
"""
