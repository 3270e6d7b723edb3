# Prints the replies of a session, and beneath each refusal the line, the code's name and what is expected there.
# Reads FORMATS.md, which has the names of the codes, the script, and the replies: part says which.
BEGIN { FS = " *[|] *" }

function refusal(line, code, place,    text, words, count, where) {
    text = script[line]
    gsub(/[ \t\r]+/, " ", text)
    gsub(/^ | $/, "", text)
    count = split(text, words, " ")
    print "  " (length(text) > 160 ? substr(text, 1, 160) " .." : text)
    if (place == 0) where = "of the whole line"
    else if (place > count) where = "behind the last word"
    else where = "at word " place " (" words[place] ")"
    print "  " name[code] ", " where ": " cause[code]
    print "  expected: " (code == 4 && words[1] in form ? form[words[1]] : code in expected ? expected[code] : "a line of docs/FORMATS.md that this mode serves")
}

part == "formats" && /^## / { section = substr($0, 4) }
part == "formats" && section == "Refusals" && NF == 5 && $2 ~ /^[0-9]+$/ { name[$2] = $3; cause[$2] = $4 }
part == "formats" && section == "Refusals" && NF == 6 && $2 ~ /^[0-9]+$/ { expected[$2] = $5 }
part == "formats" && section == "Lines of a script" && NF == 5 && $2 ~ /^`[a-z]+/ {
    gsub(/`/, "", $2)
    split($2, words, " ")
    form[words[1]] = $2 ", " $3 " words"
}
part == "script" { script[FNR] = $0 }
part == "replies" { print }
part == "replies" && /^line [0-9]+ error [0-9]+ at [0-9]+$/ {
    split($0, reply, " ")
    refusal(reply[2], reply[4], reply[6] + 0)
}
