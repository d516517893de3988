# Prints a benchmark's table. Reads its limits (load, n, the most that the last version over Rust in place may be, or over the first version where no Rust is), then its counts (load, n, version, instructions). Ends with 1 where a limit is missed.
/^#/ { next }

FNR == NR {
  most[$1, $2] = $3
  next
}

!($4 > 0) {
  print "table.awk: no count in the line " $0 >"/dev/stderr"
  failed = 2
  exit
}

# The versions in the order in which they come; Rattle is the last.
!($3 in known) {
  known[$3] = 1
  version[++versions] = $3
}

!(($1, $2) in row) {
  row[$1, $2] = ++rows
  if (length($1) > wide) wide = length($1)
  load[rows] = $1
  size[rows] = $2
}

{
  count[row[$1, $2], $3] = $4
}

END {
  if (failed) exit failed
  measure = ("inplace" in known) ? "inplace" : version[1]
  head()
  for (r = 1; r <= rows; r++) line(r)
  printf "limits (%s / %s): %d met, %d missed%s\n", version[versions], measure, met, missed, told
  exit missed > 0
}

function head(v) {
  printf "%-*s %3s", wide, "load", "n"
  for (v = 1; v <= versions; v++) printf " %10s", version[v]
  for (v = 1; v < versions; v++) printf " %9s", "/" version[v]
  printf "  limit\n"
}

function ratio(r, name) {
  return count[r, version[versions]] / count[r, name]
}

function line(r, v) {
  printf "%-*s %3d", wide, load[r], size[r]
  for (v = 1; v <= versions; v++) printf " %10.0f", count[r, version[v]]
  for (v = 1; v < versions; v++) printf " %9.2f", ratio(r, version[v])
  if ((load[r], size[r]) in most) printf "  %s", judged(r, most[load[r], size[r]])
  printf "\n"
}

function judged(r, limit) {
  if (ratio(r, measure) <= limit) {
    met++
    return limit " met"
  }
  missed++
  told = told (told ? ", " : ": ") load[r] " " size[r]
  return limit " missed"
}
