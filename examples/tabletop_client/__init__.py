"""A seat at a Nafisowe table, for a terminal. `client.py` beside this folder is the program.

    view      what a seat is shown, by full and change lines
    protocol  the server's other lines in words, and what is typed as lines
    seat      a session without its connection
    drawing   the view as text and as a screen
    walls     the walls of a dumped campaign, drawn
    editor    the line that is typed
    screen    the connection, and what stands before the player: text, or a terminal
"""
