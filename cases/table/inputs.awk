# Turns the inputs of the files into lines by turns: a name, and the bytes as \x escapes. What is expected has each name
# with the lines to be printed below it. It stands on words.awk.

/^=/ { print substr($0, 3) > expected; next }
!/^< / { fail("neither an input nor a line to be printed") }
{
    name = FILENAME ":" FNR ": " about
    print name > inputs; print name > expected
    print escaped(bytes(substr($0, 3))) > inputs
}
