"""The language server `um lsp`: what an editor asks about a program, answered over standard input and output.

What a program means is asked of the program `umc`: refusals, types, layouts. Of its own the server has a split of the
text into tokens, and a reading of them that tells where a name is declared and where it is used. A rename by that
reading is judged by the program before it is answered.
"""
