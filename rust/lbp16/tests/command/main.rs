//! Tests of the command as a whole.

mod calling;
mod captures;
mod common;
mod json;
mod lists;
mod mesaflash;
mod output;
mod packets;
mod play;
mod relay;
mod serve;
mod shell;
mod wire;
