\name{station_cards}
\alias{station_cards}
\alias{plot.station_cards}
\alias{print.station_cards}
\title{The Cards That a Run Made, and a Plot of Them}
\description{
  Which cards there are after a run, what their fields hold, and where their links
  lead. \code{plot} draws a box for each card and an arrow for each link. These
  functions need the library libnuyardi_explain.so, as
  \code{\link{station_explain}} does, and the package \pkg{jsonlite}.
}
\usage{
station_cards(text, steps = 1000)

\method{plot}{station_cards}(x, labels = nrow(x$cards) <= 100L, ...)

\method{print}{station_cards}(x, ...)
}
\arguments{
  \item{text}{a script, as for \code{\link{station_check}}.}
  \item{steps}{how many steps are allowed; the cards are those after the last.}
  \item{x}{cards, as \code{station_cards} returns them.}
  \item{labels}{does each card show its class and fields, or only its number?}
  \item{...}{for \code{plot}, further arguments of \code{\link[graphics]{title}};
    otherwise not used.}
}
\value{
  \code{station_cards} returns a list of class \code{station_cards} with two data
  frames. \code{cards} has a row for each card: its number, \code{object}, and its
  \code{class}. \code{fields} has a row for each field: the \code{object} that it
  belongs to, its \code{name}, whether it is a \code{link}, its \code{value} (for a link
  the number of the card that it leads to, or \code{NA} for null), whether the
  links by it form a \code{ring}, and the \code{holder}: 0 is main, then come
  the open calls, \code{NA} is nobody. There are no cards for a refused text, nor
  after more than 20,000,000 steps: that is an error.

  \code{plot} returns the cards, invisibly. A card is grey if nobody holds a field
  of it; the links of a ring are red, and a link of a card to itself is a small ring
  at its corner. If the run made no cards, that is an error.
}
\examples{
text <- "class\tS\nfield\tS\tp\nmain\nvar\tS\ts\nnew\ts\tS\nend\n"
tryCatch(plot(station_cards(text)), error = function(missing) conditionMessage(missing))
}
