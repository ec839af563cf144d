# The reports of several processes as one: numbers are added up, but for the deepest stack, which is the deepest of all.
/^stat::number_of_executed_units:/ { executed += $2 }
/^stat::average_exec_per_sec:/ { speed += $2 }
/ sheets agree$/ { row = 0; reporting = 1 }
reporting {
    row++
    words[row] = $0
    for (i = 1; i <= NF; i++)
        if ($i ~ /^[0-9]+$/)
            sums[row, i] += $i
}
/^names: / { reporting = 0 }
/^deepest stack: / && $3 > deepest { deepest = $3; stack = $0 }
END {
    printf "%d executions, %d a second\n", executed, speed
    for (at = 1; at in words; at++)
        print_row(words[at], at)
    if (stack != "")
        print stack
}

# a row of the table keeps its columns, and the number of a refusal is not a sum
function print_row(line, at,    i, count, fields, text) {
    count = split(line, fields)
    if (line ~ /^refused/ || line ~ /^answered/) {
        text = substr(line, 1, 10)
        for (i = count - 4; i <= count; i++)
            text = text sprintf(" %8d", sums[at, i])
        print text
    } else if (line ~ /^ /)
        print line
    else {
        for (i = 1; i <= count; i++)
            text = text (i > 1 ? " " : "") (((at, i) in sums) ? sums[at, i] : fields[i])
        print text
    }
}
