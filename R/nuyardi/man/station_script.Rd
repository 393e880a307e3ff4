\name{station_script}
\alias{station_script}
\title{Read a Script}
\description{The bytes of a file, as the calls take them.}
\usage{
station_script(path)
}
\arguments{
  \item{path}{the name of the file.}
}
\value{A raw vector.}
\seealso{\code{\link{station_check}}}
\examples{
path <- tempfile()
writeLines(c("main", "end"), path)
station_check(station_script(path))
}
