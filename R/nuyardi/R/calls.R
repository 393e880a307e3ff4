# The calls: they test the text and the steps, and make answers from what the library returns.

# The text of a file, byte by byte.
station_script <- function(path) {
  if (!is.character(path) || length(path) != 1L || is.na(path)) stop("path must be the name of one file")
  if (!file.exists(path)) stop("there is no file ", path)
  readBin(path, "raw", file.size(path))
}

# A text as bytes: a raw vector, or one string.
script_bytes <- function(text) {
  if (is.raw(text)) return(text)
  if (is.character(text) && length(text) == 1L && !is.na(text)) return(charToRaw(text))
  stop("text must be a raw vector or one string, and is ", class(text)[1L], " of length ", length(text), call. = FALSE)
}

# Steps as a double, if they are a whole number of 32 bits.
steps_in_range <- function(steps, name = "steps") {
  if (!is.numeric(steps) || length(steps) != 1L || is.na(steps)) stop(name, " must be one number", call. = FALSE)
  whole <- steps >= 0 && steps <= 4294967295 && steps == floor(steps)
  if (!whole) stop(name, " must be a whole number from 0 to 4294967295", call. = FALSE)
  as.double(steps)
}

station_check <- function(text) {
  returned <- .Call(nuyardi_check, script_bytes(text))
  answer(returned, list(accepted = returned[1L] == 0))
}

station_run <- function(text, steps = 1000) ran(nuyardi_run, text, steps)

station_trial <- function(text, steps = 1000) ran(nuyardi_trial, text, steps)

# Always the answer of station_run, from a machine that tests no permission.
station_lean <- function(text, steps = 1000) ran(nuyardi_lean, text, steps)

ran <- function(call, text, steps) {
  bytes <- script_bytes(text)
  ended(.Call(call, bytes, steps_in_range(steps)), bytes)
}

station_bound <- function(text) {
  returned <- .Call(nuyardi_bound, script_bytes(text))
  bounded <- returned[1L] == 0
  most <- if (bounded) returned[3:4] else c(NA_real_, NA_real_)
  answer(returned, list(bounded = bounded, steps = most[1L], frames = most[2L]))
}

# The permissions that a line `requires *` stands for.
station_fill <- function(text) {
  bytes <- script_bytes(text)
  returned <- .Call(nuyardi_fill, bytes)
  filled <- returned[1L] == 0
  places <- as.integer(returned[-(1:2)])
  places <- places[places > 0L]
  line <- if (filled) requires_line(bytes, places) else NA_character_
  answer(returned, list(filled = filled, places = places, requires = line))
}

# Up to four texts over one heap, one step of each per round; without `shares` they are equal parts of 256 objects.
station_count <- function(texts, rounds = 1000, shares = NULL) {
  if (!is.list(texts) && !is.character(texts)) stop("texts must be a list of texts, and is ", class(texts)[1L])
  bytes <- lapply(texts, script_bytes)
  if (is.null(shares)) shares <- rep(256 %/% max(length(bytes), 1L), length(bytes))
  if (length(shares) != length(bytes)) stop(length(bytes), " texts, but ", length(shares), " shares")
  shares <- vapply(shares, steps_in_range, 0, name = "a share")
  returned <- .Call(nuyardi_count, bytes, steps_in_range(rounds, "rounds"), shares)
  counted <- returned[1L] == 0
  script <- function(at) ended(matrix(returned[-(1:2)], ncol = length(bytes))[, at], bytes[[at]])
  scripts <- if (counted) lapply(seq_along(bytes), script) else list()
  finished <- counted && all(vapply(scripts, function(script) script$finished, NA))
  answer(returned, list(finished = finished, scripts = scripts))
}
