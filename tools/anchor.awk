# anchor.awk: what pages and html share: the anchor of a heading, by GitHub's rule. Both read it in front of their own program, in the C
# locale.

# Small letters, digits, - and _, a space as -, and a number behind it where it is taken. Other bytes are letters of other alphabets.
function anchor(text) {
    text = tolower(text)
    gsub(/[^-a-z0-9_ \200-\377]/, "", text)
    gsub(/ /, "-", text)
    return text (taken[text]++ ? "-" taken[text] - 1 : "")
}
