# Makes the manual page postmig-script(5) of docs/SCRIPT.md:
#   awk -v version=0.1.0 -f docs/man.awk docs/SCRIPT.md
# It knows what that page has: headings, paragraphs, lists, tables, and blocks that are indented by four spaces.

function escaped(text) {
  gsub(/\\/, "\\e", text)
  gsub(/-/, "\\-", text)
  return text
}

# A text with its bold words and without its links, at the start of a line.
function styled(text, parts, count, i, made, front) {
  gsub(/\\\|/, "|", text)
  while (match(text, /\[[^]]*\]\([^)]*\)/)) {
    front = substr(text, RSTART + 1, RLENGTH - 1)
    sub(/\]\(.*/, "", front)
    text = substr(text, 1, RSTART - 1) front substr(text, RSTART + RLENGTH)
  }
  gsub(/\*\*/, "", text)
  # (two backquotes enclose a text that has one)
  gsub(/`` ?/, "`", text)
  count = split(text, parts, "`")
  made = ""
  for (i = 1; i <= count; i++) made = made (i % 2 ? escaped(parts[i]) : "\\fB" escaped(parts[i]) "\\fR")
  if (made ~ /^[.']/) made = "\\&" made
  return made
}

function leave_block() {
  if (in_block) print ".fi\n.RE"
  in_block = 0
}

BEGIN {
  printf ".TH POSTMIG\\-SCRIPT 5 \"\" \"postmig %s\"\n", version
  print ".SH NAME\npostmig\\-script \\- scripts, transcripts and tests of postmig"
}

/^# / {
  print ".SH DESCRIPTION"
  next
}
/^##+ / {
  leave_block()
  sub(/^## /, ".SH ") || sub(/^###+ /, ".SS ")
  front = substr($0, 1, 4)
  print front styled(substr($0, 5))
  in_table = 0
  next
}

/^    / && (in_block || !in_text) {
  if (!in_block) print ".PP\n.RS\n.nf"
  in_block = 1
  line = escaped(substr($0, 5))
  if (line ~ /^[.']/) line = "\\&" line
  print line
  next
}

/^$/ {
  was_block = in_block
  leave_block()
  in_text = in_table = 0
  next
}

# A table: the words of its head are left out where a row has two cells.
/^\|[-|]+\|$/ { next }
/^\|/ {
  leave_block()
  line = $0
  gsub(/\\\|/, "\001", line)
  count = split(line, cells, /\|/)
  for (i = 1; i <= count; i++) gsub(/\001/, "|", cells[i])
  is_head = !in_table
  in_table = 1
  first = cells[2]
  gsub(/^ +| +$/, "", first)
  if (is_head) {
    print ".PP"
    next
  }
  print ".TP"
  print first == "" ? "\\&" : styled(first)
  made = ""
  for (i = 3; i < count; i++) {
    gsub(/^ +| +$/, "", cells[i])
    if (cells[i] != "") made = made (made == "" ? "" : "; ") cells[i]
  }
  print styled(made)
  next
}

/^(- |[0-9]+\. )/ {
  leave_block()
  in_text = 1
  mark = $1 == "-" ? "\\(bu" : $1
  sub(/^(- |[0-9]+\. )/, "")
  print ".IP " mark " 4"
  print styled($0)
  next
}

{
  leave_block()
  if (!in_text) print ".PP"
  in_text = 1
  print styled($0)
}

END { leave_block() }
