# The library of explanations: an error if it is missing, and what it says otherwise.
library(nuyardi)

refuses <- function(expression, words) {
  said <- tryCatch({ expression; "no error" }, error = conditionMessage)
  if (!grepl(words, said, fixed = TRUE)) stop("expected '", words, "', got '", said, "'")
}
text <- "main\nvar\tint\ta\nlet\ta\t7\nend\n"

library_there <- Sys.getenv("NUYARDI_EXPLAIN_LIBRARY")
Sys.setenv(NUYARDI_EXPLAIN_LIBRARY = "/nowhere/libnuyardi_explain.so")
for (call in list(station_explain, station_explain_run, station_trace, station_cards, station_draw))
  refuses(call(text), "libnuyardi_explain.so cannot be loaded")
refuses(station_trace(text, -1), "steps must be a whole number")
refuses(station_draw(5), "text must be a raw vector or one string")
Sys.setenv(NUYARDI_EXPLAIN_LIBRARY = "libc.so.6")
refuses(station_draw(text), "has no function nuyardi_draw")

# A drawing is saved as it is.
path <- tempfile()
station_save(structure("<svg/>", class = "station_drawing"), path)
stopifnot(identical(readLines(path), "<svg/>"))
refuses(station_save("<svg/>", path), "drawing was not made by station_draw")

# Cards become rows, which can be plotted: none, one that links to itself, links of a ring, null, a card without a field, many.
field <- function(name, value, link, ring = FALSE, holder = 0L)
  list(name = name, link = link, value = value, ring = ring, holder = holder)
card <- function(object, ...) list(object = object, class = "Card", fields = list(...))
made <- nuyardi:::carded(list(
  card(1L, field("prev", 2L, TRUE, ring = TRUE), field("tag", -7L, FALSE)),
  card(2L, field("prev", 1L, TRUE, ring = TRUE), field("tag", 2147483647L, FALSE)),
  card(3L, field("prev", 3L, TRUE, ring = TRUE, holder = NULL)), card(4L, field("prev", NULL, TRUE)), card(5L)))
stopifnot(inherits(made, "station_cards"), identical(made$cards$object, 1:5), nrow(made$fields) == 6L,
          identical(made$fields$object, c(1L, 1L, 2L, 2L, 3L, 4L)), identical(made$fields$value, c(2, -7, 1, 2147483647, 3, NA)),
          identical(made$fields$holder, c(0, 0, 0, 0, NA, 0)))
stopifnot(identical(nuyardi:::card_labels(made), c("1: Card\nprev = 2\ntag = -7", "2: Card\nprev = 1\ntag = 2147483647",
                                                   "3: Card\nprev = 3", "4: Card\nprev = null", "5: Card")))
stopifnot(identical(nuyardi:::card_links(made), data.frame(from = 1:3, to = c(2L, 1L, 3L), ring = TRUE)))
stopifnot(identical(capture.output(print(made))[1L], "5 cards"))
none <- nuyardi:::carded(list())
stopifnot(nrow(none$cards) == 0L, nrow(none$fields) == 0L, identical(capture.output(print(none)), "0 cards"))
refuses(plot(none), "the run made no cards")
many <- nuyardi:::carded(lapply(1:256, function(at) card(at, field("prev", if (at > 1L) at - 1L, TRUE))))
grDevices::pdf(NULL)
for (cards in list(made, many, nuyardi:::carded(list(card(1L)))))
  stopifnot(identical(plot(cards), cards), identical(plot(cards, labels = FALSE, main = "cards"), cards))

# Steps as JSON lines become rows, which can be plotted.
if (requireNamespace("jsonlite", quietly = TRUE)) {
  steps <- nuyardi:::traced(c('{"step":1,"line":3,"depth":0,"changes":["a = 7"]}', '{"step":2,"line":4,"depth":0,"changes":[]}'))
  stopifnot(inherits(steps, "station_trace"), nrow(steps) == 2L, identical(steps$line, 3:4))
  grDevices::pdf(NULL)
  plot(steps)
  stopifnot(nrow(nuyardi:::traced(character())) == 0L)
  refuses(plot(nuyardi:::traced(character())), "the trace has no steps")
}

if (nzchar(library_there) && requireNamespace("jsonlite", quietly = TRUE)) {
  Sys.setenv(NUYARDI_EXPLAIN_LIBRARY = library_there)
  refused <- "main\nassert\teq\t1\t2\nend\n"
  said <- station_explain(refused)
  stopifnot(!said$accepted, said$number == 13L, said$line == 2L, nzchar(said$cause), nzchar(said$headline))
  stopifnot(identical(station_explain("main\nvar\tint\ta\nend\n")$warnings$kind, "unused-variable"))
  ended <- station_explain_run(text)
  stopifnot(ended$finished, ended$steps == 2L, identical(ended$variables$name, "a"))
  steps <- station_trace(text)
  stopifnot(nrow(steps) == 2L, identical(steps$line, 3:4), nrow(station_trace(refused)) == 0L)
  plot(steps)
  stopifnot(grepl("^<svg", station_draw(text)))
  stopifnot(nrow(station_cards(text)$cards) == 0L)
  made <- station_cards("class\tS\nfield\tS\tp\nmain\nvar\tS\ts\nvar\tS\tt\nnew\ts\tS\nnew\tt\tS\nset\tt\tp\ts\nend\n")
  stopifnot(identical(made$cards$class, c("S", "S")), identical(made$fields$value, c(NA, 1)), all(made$fields$holder == 0))
  plot(made)
  refuses(station_cards(refused), "there are no cards")
  refuses(station_draw(refused), "there is no picture")
}
