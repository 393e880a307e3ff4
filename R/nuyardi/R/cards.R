# The cards that a run made, over libnuyardi_explain.so, and a plot of them.

# A null of JSON becomes NA.
or_na <- function(value) if (is.null(value)) NA else value

station_cards <- function(text, steps = 1000) {
  said <- parsed(answered("nuyardi_cards", text, steps), simplifyVector = FALSE)
  if (is.null(said[["cards"]])) stop("there are no cards: the text is refused, or its run takes too many steps")
  carded(said[["cards"]])
}

# The fields of a card, a row for each. The value of a link is the number of the card that it leads to.
card_fields <- function(card) {
  each <- function(part, kind) vapply(card$fields, part, kind)
  data.frame(object = rep(as.integer(card$object), length(card$fields)),
             name = each(function(field) field$name, ""),
             link = each(function(field) field$link, NA),
             value = each(function(field) as.double(or_na(field$value)), 0),
             ring = each(function(field) field$ring, NA),
             holder = each(function(field) as.double(or_na(field$holder)), 0),
             stringsAsFactors = FALSE)
}

# Two data frames, made from cards as JSON lists.
carded <- function(cards) {
  none <- card_fields(list(object = 0L, fields = list()))
  made <- data.frame(object = vapply(cards, function(card) as.integer(card$object), 0L),
                     class = vapply(cards, function(card) card$class, ""), stringsAsFactors = FALSE)
  structure(list(cards = made, fields = do.call(rbind, c(list(none), lapply(cards, card_fields)))), class = "station_cards")
}

print.station_cards <- function(x, ...) {
  count <- nrow(x$cards)
  cat(count, if (count == 1L) " card\n" else " cards\n", sep = "")
  if (nrow(x$fields) > 0L) print(x$fields, row.names = FALSE)
  invisible(x)
}

# The text in each card: its number and class, and a line for each field.
card_labels <- function(x) {
  values <- ifelse(x$fields$link & is.na(x$fields$value), "null", sprintf("%.0f", x$fields$value))
  lines <- if (nrow(x$fields) > 0L) paste0(x$fields$name, " = ", values) else character()
  heads <- paste0(x$cards$object, ": ", x$cards$class)
  vapply(seq_len(nrow(x$cards)), function(at) {
    paste(c(heads[at], lines[x$fields$object == x$cards$object[at]]), collapse = "\n")
  }, "")
}

# The links that lead to a card: the places of both cards, and whether the link is part of a ring.
card_links <- function(x) {
  leads <- x$fields[x$fields$link & !is.na(x$fields$value), , drop = FALSE]
  data.frame(from = match(leads$object, x$cards$object), to = match(leads$value, x$cards$object), ring = leads$ring)
}

# Cards in rows from the top left, in the order in which they were made; arrows are the links. Half the width and height of a card:
card_width <- 0.38
card_height <- 0.32

plot.station_cards <- function(x, labels = nrow(x$cards) <= 100L, ...) {
  count <- nrow(x$cards)
  if (count == 0L) stop("the run made no cards")
  wide <- ceiling(sqrt(count))
  column <- (seq_len(count) - 1) %% wide
  row <- (seq_len(count) - 1) %/% wide
  plot.new()
  plot.window(xlim = c(-0.5, wide - 0.5), ylim = c(max(row) + 0.5, -0.5))
  links <- card_links(x)
  colour <- ifelse(links$ring, "red", "black")
  itself <- links$from == links$to
  far <- links[!itself, , drop = FALSE]
  if (nrow(far) > 0L) {
    across <- column[far$to] - column[far$from]
    down <- row[far$to] - row[far$from]
    # From edge to edge of the two cards.
    part <- pmin(card_width / abs(across), card_height / abs(down))
    arrows(column[far$from] + part * across, row[far$from] + part * down,
           column[far$to] - part * across, row[far$to] - part * down, length = 0.08, col = colour[!itself])
  }
  lost <- !(x$cards$object %in% x$fields$object[!is.na(x$fields$holder)]) & x$cards$object %in% x$fields$object
  rect(column - card_width, row - card_height, column + card_width, row + card_height, col = "white",
       border = ifelse(lost, "grey", "black"))
  # A link of a card to itself is a small ring at its corner.
  if (any(itself)) {
    at <- links$from[itself]
    points(column[at] + card_width, row[at] - card_height, pch = 1, cex = 2, col = colour[itself])
  }
  shown <- if (labels) card_labels(x) else as.character(x$cards$object)
  text(column, row, shown, cex = max(0.3, min(0.9, 5 / wide)))
  title(...)
  invisible(x)
}
