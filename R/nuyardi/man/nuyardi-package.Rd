\name{nuyardi-package}
\alias{nuyardi-package}
\alias{nuyardi}
\docType{package}
\title{Check and Run Catalogue Scripts}
\description{
  Survey stations run small scripts over catalogues of sighting cards. This
  package checks and runs such scripts with the proved library libnuyardi: what
  \code{\link{station_check}}, \code{\link{station_run}},
  \code{\link{station_trial}}, \code{\link{station_lean}},
  \code{\link{station_bound}}, \code{\link{station_fill}} and
  \code{\link{station_count}} answer is what the library returns, for
  every text.
}
\details{
  The library is linked into the package. Its areas are allocated for each call
  and cannot be passed in from R, so none is missing and none overlaps another
  or the text.

  \code{\link{station_explain}}, \code{\link{station_trace}},
  \code{\link{station_cards}} and \code{\link{station_draw}} need a second library, libnuyardi_explain.so.
}
\seealso{\code{vignette("worked", package = "nuyardi")}}
\keyword{package}
