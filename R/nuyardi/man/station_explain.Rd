\name{station_explain}
\alias{station_explain}
\alias{station_explain_run}
\alias{station_trace}
\alias{station_draw}
\alias{station_save}
\alias{print.station_drawing}
\title{Explain a Refusal, Trace a Run, Draw the Cards}
\description{
  What there is to say about a script beyond number and line. These functions need
  the library libnuyardi_explain.so, which the environment variable
  \code{NUYARDI_EXPLAIN_LIBRARY} can name, and stop if it is missing. All but
  \code{station_draw} need the package \pkg{jsonlite}.
}
\usage{
station_explain(text)
station_explain_run(text, steps = 1000)
station_trace(text, steps = 1000)
station_draw(text, steps = 1000)
station_save(drawing, path)

\method{print}{station_drawing}(x, ...)
}
\arguments{
  \item{text}{a script, as for \code{\link{station_check}}.}
  \item{steps}{how many steps are allowed.}
  \item{drawing, x}{a drawing, as \code{station_draw} returns it.}
  \item{path}{the name of the file to write.}
  \item{...}{not used.}
}
\value{
  \code{station_explain} and \code{station_explain_run} return a list with the
  number, the line, the cause and a fix, as the command station prints it with
  \code{--json}. \code{station_trace} returns a data frame with a row for each step,
  at most 100,000, of class \code{station_trace}, which
  \code{\link{plot.station_trace}} plots; it has no rows for a refused text.
  \code{station_draw} returns the cards after a run as an SVG picture, a string of
  class \code{station_drawing}, and \code{station_save} writes it to a file. There
  is no picture for a refused text, nor after more than 20,000,000 steps: that is an
  error.
}
\seealso{\code{\link{station_cards}}}
\examples{
text <- "main\nvar\tint\ta\nlet\ta\t7\nend\n"
tryCatch(print(station_trace(text)), error = function(missing) conditionMessage(missing))
}
