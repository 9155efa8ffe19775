# The examples of a page for C, its indented blocks, each in braces between the host's `before` and `after`; an example
# is named by the first call in it. What stands between ``` is no C: of the setter's examples tests/examples/run looks
# after it.
function close_block() {
    if (open)
        print "    }\n    after(round, \"" call "\");"
    open = 0
}
/^```/ {
    close_block()
    fenced = !fenced
    next
}
fenced { next }
/^    / {
    if (!open) {
        print "    before(round);\n    {"
        open = 1
        call = ""
    }
    if (call == "" && match($0, /engine_[a-z_]+\(/))
        call = substr($0, RSTART + 7, RLENGTH - 8)
    print
    next
}
NF { close_block() }
END { close_block() }
