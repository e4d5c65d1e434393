//! Packets that may be sent again.

/// Whether a packet only reads, each command by its address, and reads the same when it comes again: not the packet count, and not a
/// pointer, which an info area shows at 6.
pub fn may_be_sent_again(packet: &[u8]) -> bool {
    let (commands, rest) = packet.as_chunks::<4>();
    let good = |[low, high, address_low, address_high]: &[u8; 4]| {
        let fields = head::fields(u16::from_le_bytes([*low, *high]));
        let first = u32::from(u16::from_le_bytes([*address_low, *address_high]));
        let elements = if fields.increment {
            u32::from(fields.count)
        } else {
            1
        };
        let read = first..first + (elements << fields.size);
        let changes = match (fields.info, fields.space) {
            (true, _) => read.contains(&6),
            (false, 6) => read.contains(&0x0A),
            (false, _) => false,
        };
        fields.address && !fields.write && !changes
    };
    rest.is_empty() && commands.iter().all(good)
}
