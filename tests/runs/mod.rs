//! Tests of the commands `run`, `live`, `check` and `verify-live`, which run the whole program with `scenes`.

mod checked;
mod held_workers;
mod live;
mod most_stations;
mod refused;
mod settled;
mod starts;
mod stopped;
mod undecided;
