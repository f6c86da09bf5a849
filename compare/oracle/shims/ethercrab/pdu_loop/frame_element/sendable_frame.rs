//! Stands for ethercrab's pdu_loop/frame_element/sendable_frame.rs, of which pdu_loop/mod.rs names the type. Sending is left out of the port.

pub struct SendableFrame;
