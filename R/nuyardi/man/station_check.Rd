\name{station_check}
\alias{station_check}
\alias{station_run}
\alias{station_trial}
\alias{station_lean}
\alias{station_bound}
\alias{station_fill}
\alias{station_count}
\alias{print.station_answer}
\title{Check a Script, Run It, Try It Out, Bound Its Steps, Fill It In}
\description{
  \code{station_check} says whether a text is a script that keeps to its
  permissions. \code{station_run} checks it and runs it if it is accepted.
  \code{station_trial} runs it without checking it first.
  \code{station_lean} always gives the answer of \code{station_run}, and tests
  no permission: it is faster in a long run over many cards.
  \code{station_bound} gives the most steps and frames that a run can take.
  \code{station_fill} gives the permissions that a line \code{requires *} stands
  for: with them the text is accepted. \code{station_count} runs 1 to 4 scripts
  over one heap, one step of each per round, each with a share of the heap.
}
\usage{
station_check(text)
station_run(text, steps = 1000)
station_trial(text, steps = 1000)
station_lean(text, steps = 1000)
station_bound(text)
station_fill(text)
station_count(texts, rounds = 1000, shares = NULL)

\method{print}{station_answer}(x, ...)
}
\arguments{
  \item{text}{a script: a raw vector, as \code{\link{station_script}} returns it, or
    one string with its tabs and line ends.}
  \item{steps}{how many steps are allowed, a whole number from 0 to 4294967295.
    R cannot be interrupted during a run.}
  \item{texts}{1 to 4 scripts: a list of raw vectors, or a character vector.}
  \item{rounds}{how many rounds to run, a whole number from 0 to 4294967295.}
  \item{shares}{how many objects each script may make, at most 256 in all; equal
    parts of 256 if none are given.}
  \item{x}{an answer.}
  \item{...}{not used.}
}
\value{
  A list of class \code{station_answer} with
  \item{number}{0, or the number of the refusal (2 to 14), of the reason why
    there is no bound (15, 16) or nothing to fill in (17, 18), or why no script
    is run (19), or of the stop (21 to 27).}
  \item{line}{the line, from 1; 0 if the whole text is meant.}
  \item{meaning}{the number in words.}

  \code{station_check} adds \code{accepted}. \code{station_run},
  \code{station_trial} and \code{station_lean} add \code{finished}, \code{refused}, the \code{steps}
  taken, and \code{variables}: a data frame with the \code{name}, \code{type} and
  \code{value} of each variable of main, without rows if the text was refused. An
  object is its number from 1, and null is \code{NA}. \code{station_bound} adds
  \code{bounded}, \code{steps} and \code{frames}, which are \code{NA} if there
  is no bound. \code{station_fill} adds \code{filled}, the \code{places} of the
  permissions, from 1, and \code{requires}, the line that takes the place of
  \code{requires *}, \code{NA} if there is none. \code{station_count} adds
  \code{scripts}, a list with the answer of \code{station_run} for each script
  alone, with its share as the heap and the rounds as steps, and
  \code{finished}, if all are.

  A refusal is an answer. Errors are for misuse: a text that is neither raw nor
  one string, steps out of range.
}
\examples{
text <- "main\nvar\tint\ta\nlet\ta\t7\nend\n"
station_check(text)$accepted
station_run(text)$variables
station_bound(text)$steps
identical(station_lean(text), station_run(text))
station_count(c(text, text), shares = c(1, 255))$finished
starred <- c("class\\tS", "field\\tint\\tn", "method\\tint\\tm\\tint\\tk", "requires\\t*",
             "ensures", "set\\tthis\\tn\\tk", "end", "main", "end")
station_fill(paste0(starred, "\\n", collapse = ""))$requires
station_check("main\nassert\teq\t1\t2\nend\n")
}
