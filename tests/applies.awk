# Sees that the edits of a list apply: each old text stands in its file, as the entry's earlier edits left it, exactly once.
# Variables: folder, which the files are in; suffix, of their names; by_crate=1 where an entry's name begins with its crate;
# breaks=1 where \n stands for a line's end.

function content(path,    line, text) {
    if (path in contents) return contents[path]
    while ((getline line <path) > 0) text = text line "\n"
    close(path)
    return contents[path] = text
}

function unescaped(text) {
    if (breaks) gsub(/\\n/, "\n", text)
    return text
}

function bad(reason) {
    print "BAD ENTRY  " name ": " reason
    failures++
}

function replace(old, new,    at, rest) {
    at = index(text[path], old)
    rest = substr(text[path], at + length(old))
    if (old == "" || at == 0) bad("an old text is not in " file)
    else if (index(rest, old)) bad("an old text is in " file " more than once")
    else text[path] = substr(text[path], 1, at - 1) new rest
}

/^name: / {
    name = substr($0, 7)
    crate = by_crate ? substr(name, 1, index(name, "/")) : ""
    split("", text)
    count++
}
/^file: / {
    file = substr($0, 7)
    path = folder "/" crate file suffix
    if (!(path in text)) text[path] = content(path)
}
/^old: / { old = unescaped(substr($0, 6)) }
/^new:/ { replace(old, unescaped(substr($0, 6))) }

END {
    print count " entries, " failures + 0 " that don't apply"
    exit failures > 0 || count == 0
}
