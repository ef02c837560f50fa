//! What the script `dmarc` prints, says and ends with. The proved program must
//! be there: `./dmarc examples/01.txt` makes it.

mod addresses;
mod answers;
mod builds;
mod days;
mod ends;
mod fields;
mod files;
mod first_run;
mod full;
mod house;
mod received;
mod refusals;
mod stops;
mod verdicts;
