# Writes the files of a row of `lists` or `nests`: `long.mod`, `long.dat` where the row has one, and `wanted`, in the folder `to`. The
# row is the line numbered `row`. The number of copies is the row's own, or else `most`.

# A text without copies: `$` is the number of copies, `!A+B!` is A and B times that number.
function plain(text,   parts, pieces, numbers, j) {
  pieces = split(text, parts, "!")
  text = parts[1]
  for (j = 2; j <= pieces; j++) {
    if (j % 2 == 0) {
      split(parts[j], numbers, "+")
      text = text (numbers[1] + numbers[2] * count)
    } else
      text = text parts[j]
  }
  gsub(/[$]/, count, text)
  return text
}

# A text in which `~X~S~` is X so many times with S between. In X, `%` is the number of the copy, from 1, and `^` the one before.
# Numbers are put between the pieces of X, since some versions of awk keep each text that `gsub` ever put in.
function expand(text, file,   parts, pieces, between, before, marks, rest, j, k, m) {
  gsub(/\\n/, "\n", text)
  printf "" > file
  pieces = split(text, parts, "~")
  for (j = 1; j <= pieces; j += 3) {
    printf "%s", plain(parts[j]) > file
    marks = 0
    for (rest = plain(parts[j + 1]); match(rest, /[%^]/); rest = substr(rest, RSTART + 1)) {
      between[++marks] = substr(rest, 1, RSTART - 1)
      before[marks] = substr(rest, RSTART, 1) == "^"
    }
    for (k = 1; j < pieces && k <= count; k++) {
      if (k > 1) printf "%s", parts[j + 2] > file
      for (m = 1; m <= marks; m++) printf "%s%d", between[m], k - before[m] > file
      printf "%s", rest > file
    }
  }
  close(file)
}

NR == row {
  count = $2 == "" ? most : $2
  expand($3, to "/long.mod")
  if ($4 != "") expand($4, to "/long.dat")
  expand($5, to "/wanted")
  exit
}
