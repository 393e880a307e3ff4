# The calls on scripts with known answers, and what they refuse.
library(nuyardi)

text <- function(...) paste0(gsub(" ", "\t", c(...)), "\n", collapse = "")
worked <- text(
  "class S", "field S prev", "field int n", "method int tag int k", "requires acc this n",
  "ensures acc this n eq this.n k", "set this n k", "return k", "end", "main", "var S s", "var int a",
  "var int b", "new s S", "let a 7", "call b s tag a", "assert eq s.n 7", "assert eq s.prev null", "end")

refuses <- function(expression, words) {
  said <- tryCatch({ expression; "no error" }, error = conditionMessage)
  if (!grepl(words, said, fixed = TRUE)) stop("expected '", words, "', got '", said, "'")
}

# The worked script.
checked <- station_check(worked)
stopifnot(checked$number == 0L, checked$line == 0L, checked$accepted)
for (call in list(station_run, station_trial, station_lean)) {
  ended <- call(worked, 1000)
  stopifnot(ended$number == 0L, ended$line == 19L, ended$steps == 8, ended$finished, !ended$refused,
            identical(ended$variables,
                      data.frame(name = c("s", "a", "b"), type = c("S", "int", "int"), value = c(1, 7, 7),
                                 stringsAsFactors = FALSE)))
}
bound <- station_bound(worked)
stopifnot(bound$bounded, bound$steps == 9, bound$frames == 2)
stopifnot(station_run(worked, 7)$number == 21L, identical(station_check(charToRaw(worked)), checked))

# Without the permission.
bare <- sub("requires\tacc\tthis\tn\n", "requires\n", worked, fixed = TRUE)
stopifnot(station_check(bare)$number == 12L, station_check(bare)$line == 7L, !station_check(bare)$accepted)
stopifnot(station_run(bare)$refused, nrow(station_run(bare)$variables) == 0L, station_trial(bare)$number == 24L)

# The lean machine gives the same answers as run, also for a refused text.
for (script in list(worked, bare, "", raw(40000)))
  for (steps in c(0, 3, 1000)) stopifnot(identical(station_lean(script, steps), station_run(script, steps)))

# Extreme values, null, no bound, texts of any bytes.
ends <- station_run(text("class S", "main", "var S s", "var int a", "var int b", "let a -2147483648", "let b 2147483647", "end"))
stopifnot(identical(ends$variables$value, c(NA, -2147483648, 2147483647)))
looped <- station_bound(text("main", "loop eq 1 1", "again", "end"))
stopifnot(looped$number == 15L, looped$line == 2L, !looped$bounded, is.na(looped$steps), is.na(looped$frames))
stopifnot(station_check("")$number == 8L, station_check(raw())$number == 8L, station_check(as.raw(0:255))$number == 3L,
          station_check(raw(40000))$number == 2L, station_run(raw())$refused)
stopifnot(nrow(station_run(text("main", "end"))$variables) == 0L)

# A line `requires *`.
starred <- sub("requires\tacc\tthis\tn\n", "requires\t*\n", worked, fixed = TRUE)
filled <- station_fill(starred)
stopifnot(filled$number == 0L, filled$line == 0L, filled$filled, identical(filled$places, 2L),
          identical(filled$requires, "requires\tacc\tthis\tn"))
stopifnot(identical(sub("requires\t*", filled$requires, starred, fixed = TRUE), worked))
other <- station_fill(text("class S", "field int a", "field int b", "method int m S s", "requires *",
                           "ensures acc this b acc s a", "end", "main", "end"))
stopifnot(identical(other$places, 2:3), identical(other$requires, "requires\tacc\tthis\tb\tacc\ts\ta"))
none <- station_fill(worked)
stopifnot(none$number == 18L, none$line == 0L, !none$filled, identical(none$places, integer()), is.na(none$requires))
stopifnot(station_check(starred)$number == 4L, station_fill("")$number == 8L)

# Counts.
counted <- station_count(list(worked, charToRaw(worked), bare))
stopifnot(counted$number == 0L, counted$line == 0L, !counted$finished,
          identical(counted$scripts, list(station_run(worked), station_run(worked), station_run(bare))))
stopifnot(station_count(c(worked, worked), 8, c(1, 255))$finished, !station_count(worked, 7)$finished)
news <- text("class S", "main", "var S s", "new s S", "new s S", "end")
full <- station_count(c(news, news), shares = c(1, 2))
stopifnot(full$scripts[[1L]]$number == 22L, full$scripts[[1L]]$line == 5L, full$scripts[[2L]]$finished)
for (none in list(station_count(list()), station_count(rep(worked, 5)), station_count(worked, 9, 0),
                  station_count(c(worked, worked), 9, c(256, 1))))
  stopifnot(none$number == 19L, none$line == 0L, !none$finished, identical(none$scripts, list()))
refuses(station_count(5), "texts must be a list of texts")
refuses(station_count(list(5)), "text must be a raw vector or one string")
refuses(station_count(worked, -1), "rounds must be a whole number")
refuses(station_count(worked, 1, 1:2), "1 texts, but 2 shares")
refuses(station_count(worked, 1, 0.5), "a share must be a whole number")
refuses(.Call(nuyardi:::nuyardi_count, worked, 1, 1), "texts is not a list")
refuses(.Call(nuyardi:::nuyardi_count, list(worked), 1, 1), "text is not a raw vector")
refuses(.Call(nuyardi:::nuyardi_count, list(raw()), 1, c(1, 1)), "shares must be numbers, one for each text")

# A file.
path <- tempfile()
writeBin(charToRaw(worked), path)
stopifnot(identical(station_script(path), charToRaw(worked)))
refuses(station_script(file.path(path, "none")), "there is no file")

# Misuse.
for (call in list(station_check, station_run, station_trial, station_lean, station_bound, station_fill)) {
  for (wrong in list(NULL, 5, NA_character_, c("main", "end"), list(), quote(x)))
    refuses(call(wrong), "text must be a raw vector or one string")
}
for (call in list(station_run, station_trial, station_lean)) {
  for (wrong in list(-1, 0.5, 4294967296, Inf)) refuses(call(worked, wrong), "steps must be a whole number")
  for (wrong in list(NULL, NA, "9", 1:2, TRUE)) refuses(call(worked, wrong), "steps must be one number")
  stopifnot(call(worked, 4294967295)$finished, call(worked, 0)$number == 21L)
}

# The C functions below the R functions test their arguments too.
refuses(.Call(nuyardi:::nuyardi_check, NULL), "text is not a raw vector")
refuses(.Call(nuyardi:::nuyardi_check, "main"), "text is not a raw vector")
refuses(.Call(nuyardi:::nuyardi_run, raw(), NULL), "steps is not a number")
refuses(.Call(nuyardi:::nuyardi_run, raw(), -1), "steps must be a whole number")
refuses(.Call(nuyardi:::nuyardi_lean, "main", 1), "text is not a raw vector")
refuses(.Call(nuyardi:::nuyardi_lean, raw(), 0.5), "steps must be a whole number")
refuses(.Call(nuyardi:::nuyardi_fill, "main"), "text is not a raw vector")

# Words for people.
stopifnot(identical(capture.output(print(station_check(bare))), "line 7: permission not shown (number 12)"))
stopifnot(identical(capture.output(print(filled))[2L], "requires acc this n"))
stopifnot(identical(capture.output(print(bound))[2L], "9 steps at most, 2 frames"))
