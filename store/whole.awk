# Whether a result is whole: a JSON line for each name, in order, with a verdict. Prints how many of the tables could not be read; ends with
# 1 at the first line that is not due. That the last line has its end is for the caller to see. Usage: awk -f whole.awk NAMES RESULT
function fail(words) {
    print "line " FNR ": " words > "/dev/stderr"
    failed = 1
    exit 1
}
BEGIN {
    count = split("accepted,accepted after internal,failed,turned down,other duty,not finished,unreadable", word, ",")
    for (i = 1; i <= count; i++) known[word[i]] = 1
}
FILENAME == ARGV[1] {
    gsub(/["\\]/, "\\\\&")
    start[++names] = "{\"file\":\"" $0 "\",\"verdict\":\""
    next
}
{
    if (++lines > names) fail("more lines than names")
    if (substr($0, 1, length(start[lines])) != start[lines]) fail("not of the table that is due, " start[lines])
    rest = substr($0, length(start[lines]) + 1)
    verdict = substr(rest, 1, index(rest, "\"") - 1)
    if (!(verdict in known)) fail("no verdict")
    if (substr(rest, length(rest)) != "}") fail("not a whole object")
    unread += verdict == "unreadable"
}
END {
    if (!failed && lines < names) fail("the last of " lines + 0 " lines, " names " are due")
    if (!failed) print unread + 0
    exit failed
}
