//! Tests of layers from the inside: queues, threads, devices that fail, what is moved from shard to
//! shard, faults that no event file reaches, and two agents over a network.

mod compaction;
mod desk;
mod devices;
mod dialog;
mod examples;
mod failing;
mod files;
mod inlets;
mod moves;
mod queued_writer;
mod reliable;
mod resumes;
mod sends;
mod shards;
mod sizes;
mod two_agents;
mod workers;
