# What the calls answer.

# Every number in words, as the header station.h has them.
meanings <- c(
  "0" = "accepted; main's `end` done",
  "1" = "a lent area of wrong length",
  "2" = "text too long",
  "3" = "byte other than tab, LF, 33 to 126; last line without LF",
  "4" = "unknown word, count or form of fields, line out of place",
  "5" = "a limit of the text passed",
  "6" = "name undeclared, not allowed, reserved, declared twice",
  "7" = "wrong type",
  "8" = "text ends before main's `end`",
  "9" = "variable that may not be assigned; `call x` with x as y or z; `open x x`",
  "10" = "path read before its `acc` or `read`",
  "11" = "path that does not resolve",
  "12" = "permission not shown",
  "13" = "`eq` or `ne` not shown",
  "14" = "checker's state full",
  "15" = "`loop`, or `call` that can lead back to its own method",
  "16" = "bound above 1000000 steps",
  "17" = "no set of at most 4 permissions for `requires *`",
  "18" = "no `requires *`, or a second one",
  "19" = "no scripts or more than 4; a share of 0, or shares above 256",
  "21" = "allowed steps taken",
  "22" = "more than 256 objects or 1024 fields",
  "23" = "more than 64 frames",
  "24" = "permission missing",
  "25" = "null followed",
  "26" = "formula false",
  "27" = "sum or difference beyond 32 bits signed"
)

# Does check refuse a text with the number?
refuses <- function(number) number >= 2 && number <= 14

# An answer: number, line, what the number means, and more.
answer <- function(returned, more) {
  meaning <- meanings[as.character(returned[1L])]
  if (is.na(meaning)) stop("number ", returned[1L], ": the library and this package have different versions", call. = FALSE)
  first <- list(number = as.integer(returned[1L]), line = as.integer(returned[2L]), meaning = unname(meaning))
  structure(c(first, more), class = "station_answer")
}

# Main's variables, for a text that was run: name, type and value. An object is its number from 1, null is NA.
variables <- function(bytes, values) {
  lines <- strsplit(rawToChar(bytes), "\n", fixed = TRUE)[[1L]]
  main <- match("main", lines, nomatch = length(lines))
  after <- lines[seq_along(lines) > main]
  count <- match(FALSE, startsWith(after, "var\t"), nomatch = length(after) + 1L) - 1L
  fields <- strsplit(after[seq_len(count)], "\t", fixed = TRUE)
  type <- vapply(fields, `[`, "", 2L)
  value <- values[seq_len(count)]
  value[type != "int" & value == 0] <- NA
  data.frame(name = vapply(fields, `[`, "", 3L), type = type, value = value, stringsAsFactors = FALSE)
}

# A permission to each field of a class (the `field` lines follow its line); none for an int.
permissions <- function(lines, variable, class) {
  after <- lines[seq_along(lines) > match(paste0("class\t", class), lines, nomatch = length(lines))]
  count <- match(FALSE, startsWith(after, "field\t"), nomatch = length(after) + 1L) - 1L
  fields <- strsplit(after[seq_len(count)], "\t", fixed = TRUE)
  sprintf("acc\t%s\t%s", variable, vapply(fields, `[`, "", 3L))
}

# The line that takes the place of `requires *`, for a text that is filled in.
requires_line <- function(bytes, places) {
  lines <- strsplit(rawToChar(bytes), "\n", fixed = TRUE)[[1L]]
  star <- match("requires\t*", lines)
  header <- strsplit(lines[star - 1L], "\t", fixed = TRUE)[[1L]]
  classes <- grep("^class\t", lines[seq_len(star)], value = TRUE)
  own <- substring(classes[length(classes)], nchar("class\t") + 1L)
  choice <- c(permissions(lines, "this", own), permissions(lines, header[5L], header[4L]))
  paste(c("requires", choice[places]), collapse = "\t")
}

# How a run ended, from number, line, steps and values as returned, and the text.
ended <- function(returned, bytes) {
  refused <- refuses(returned[1L])
  more <- list(finished = returned[1L] == 0, refused = refused, steps = returned[3L],
               variables = variables(if (refused) raw() else bytes, returned[-(1:3)]))
  answer(returned, more)
}

# "1 step", "100,000 steps".
how_many <- function(number, word)
  paste0(format(number, big.mark = ",", scientific = FALSE), " ", word, if (number != 1) "s")

print.station_answer <- function(x, ...) {
  place <- if (x$line > 0) paste0("line ", x$line, ": ") else ""
  cat(place, x$meaning, " (number ", x$number, ")\n", sep = "")
  if (!is.null(x$steps) && !is.na(x$steps)) {
    most <- if (is.null(x$frames)) "" else paste0(" at most, ", how_many(x$frames, "frame"))
    cat(how_many(x$steps, "step"), most, "\n", sep = "")
  }
  if (!is.null(x$variables) && nrow(x$variables) > 0L) print(x$variables, row.names = FALSE)
  if (!is.null(x$requires) && !is.na(x$requires)) cat(gsub("\t", " ", x$requires, fixed = TRUE), "\n", sep = "")
  for (script in x$scripts) print(script)
  invisible(x)
}
