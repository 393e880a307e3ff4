\name{plot.station_trace}
\alias{plot.station_trace}
\title{Plot the Course of a Run}
\description{
  The line of each step, from left to right; the deeper the call, the larger the
  mark.
}
\usage{
\method{plot}{station_trace}(x, xlab = "step", ylab = "line", ...)
}
\arguments{
  \item{x}{a trace, as \code{\link{station_trace}} returns it.}
  \item{xlab, ylab}{the labels of the axes.}
  \item{...}{further arguments of \code{\link[graphics]{plot}}.}
}
\value{The trace, invisibly.}
\examples{
steps <- data.frame(step = 1:5, line = c(14, 15, 16, 7, 8), depth = c(0, 0, 0, 1, 1))
plot(structure(steps, class = c("station_trace", "data.frame")))
}
