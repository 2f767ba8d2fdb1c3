mod faithful;
mod fuzz;
mod insertion;
mod readings;
mod refusals;
mod rooms;
mod scope;
mod vectors;
