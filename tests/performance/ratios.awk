# Reads "NAME COUNT" lines of what was measured on n tokens and prints counts per token, proved / second = ratio.
{ v[$1] = $2 / n }
function pair(what, proved, second) {
    printf "   %s %6.1f / %5.1f = %.2f", what, v[proved], v[second], v[proved] / v[second]
}
END {
    printf "%-28s", label
    pair("tokens", "proved_tokens", "second_tokens")
    pair("bytes", "proved_bytes", "second_bytes")
    pair("reading", "proved_reads", "second_reads")
    pair("notes", "proved_notes", "second_notes")
    printf "\n"
    if (v["edit_front"] > 0) {
        printf "%-28s", ""
        pair("writing", "proved_writes", "second_writes")
        printf "   edit, in checks of the stream: front %.3f, middle %.2f, end %.2f\n", v["edit_front"] / v["proved_tokens"],
               v["edit_middle"] / v["proved_tokens"], v["edit_end"] / v["proved_tokens"]
    }
}
