# explain, trace and draw, over a second library, libnuyardi_explain.so. The cards are in cards.R.

explain_library <- function() Sys.getenv("NUYARDI_EXPLAIN_LIBRARY", "libnuyardi_explain.so")

written <- function(call, text, steps = NULL) {
  bytes <- script_bytes(text)
  if (!is.null(steps)) steps <- steps_in_range(steps)
  .Call(nuyardi_written, explain_library(), call, bytes, steps)
}

parsed <- function(json, ...) {
  # Errors of the library come first, including that it is missing.
  force(json)
  if (!requireNamespace("jsonlite", quietly = TRUE)) stop("this needs the package jsonlite", call. = FALSE)
  jsonlite::fromJSON(json, ...)
}

# What a function of the library writes; every answer has some bytes.
answered <- function(call, text, steps = NULL) {
  said <- written(call, text, steps)
  if (!nzchar(said)) stop(call, " gave no answer: an internal fault of the library", call. = FALSE)
  said
}

station_explain <- function(text) parsed(answered("nuyardi_explain", text))

station_explain_run <- function(text, steps = 1000) parsed(answered("nuyardi_explain_run", text, steps))

# The last line is what station_explain_run gives.
station_trace <- function(text, steps = 1000) {
  lines <- strsplit(answered("nuyardi_trace", text, steps), "\n", fixed = TRUE)[[1L]]
  traced(lines[-length(lines)])
}

# A data frame of JSON objects, one for each step.
traced <- function(lines) {
  steps <- parsed(paste0("[", paste(lines, collapse = ","), "]"))
  if (!is.data.frame(steps)) steps <- data.frame()
  class(steps) <- c("station_trace", "data.frame")
  steps
}

station_draw <- function(text, steps = 1000) {
  svg <- written("nuyardi_draw", text, steps)
  if (!nzchar(svg)) stop("there is no picture: the text is refused, or its run takes too many steps")
  structure(svg, class = "station_drawing")
}

station_save <- function(drawing, path) {
  if (!inherits(drawing, "station_drawing")) stop("drawing was not made by station_draw")
  writeLines(unclass(drawing), path, useBytes = TRUE)
  invisible(path)
}

print.station_drawing <- function(x, ...) {
  cat("a drawing of ", nchar(x), " characters of SVG; station_save writes it to a file\n", sep = "")
  invisible(x)
}

# The course of a run: the line of each step, with a larger mark for a deeper call.
plot.station_trace <- function(x, xlab = "step", ylab = "line", ...) {
  if (is.null(x$step) || is.null(x$line)) stop("the trace has no steps")
  plot(x$step, x$line, type = "n", xlab = xlab, ylab = ylab, ylim = rev(range(x$line)), ...)
  last <- length(x$step)
  if (last > 1L) segments(x$step[-last], x$line[-last], x$step[-1L], x$line[-1L], col = "grey")
  depth <- if (is.null(x$depth)) 0 else x$depth
  points(x$step, x$line, pch = 19, cex = 0.7 + 0.3 * depth)
  invisible(x)
}
