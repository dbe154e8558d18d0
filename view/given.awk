# What `tebalung` gives to every view, read first of the view's files. It comes by the environment: awk takes backslashes out of its own words.
BEGIN {
    names = ENVIRON["TEBALUNG_VIEW"] "/names"
    page = ENVIRON["TEBALUNG_VIEW"] "/page.html"
    title = ENVIRON["TEBALUNG_TITLE"]
}
