# Prints how many frames, events or the like each version handles in a second, in millions, and the last version's time over each other's. Reads lines of load, n, version, things a second, and the last version's time over its own in the same rounds: median, low and high. A version of another program was not timed in those rounds, and has no spread.
{
  if (!(($1, $2) in row)) {
    row[$1, $2] = ++rows
    if (length($1) > wide) wide = length($1)
    load[rows] = $1
    size[rows] = $2
  }
  if (!($3 in known)) {
    known[$3] = 1
    version[++versions] = $3
  }
  rate[row[$1, $2], $3] = $4
  spread[row[$1, $2], $3] = $5 " (" $6 " to " $7 ")"
  beside[$3] = FILENAME
}

END {
  last = version[versions]
  printf "%-*s %3s", wide, "load", "n"
  for (v = 1; v <= versions; v++) printf " %9s", version[v]
  for (v = 1; v < versions; v++) printf "  %-26s", "/" version[v]
  printf "\n"
  for (r = 1; r <= rows; r++) line(r)
}

function line(r, v, name) {
  printf "%-*s %3d", wide, load[r], size[r]
  for (v = 1; v <= versions; v++) printf " %9.3f", rate[r, version[v]] / 1e6
  for (v = 1; v < versions; v++) {
    name = version[v]
    printf "  %-26s", sprintf("%.2f", rate[r, name] / rate[r, last]) (beside[name] == beside[last] ? ", " spread[r, name] : "")
  }
  printf "\n"
}
