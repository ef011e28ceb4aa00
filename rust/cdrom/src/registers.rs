//! The registers of the W88113C and their bits, by the names of its data sheet. They are `u16`, as the calls take
//! them, so that a number that is out of range can be handed over and is refused.

/// w: clears APKT.
pub const TACK: u16 = 0x07;
/// w: [`DECEN`] or 0.
pub const CTRL0: u16 = 0x0A;
/// rw: MBC, the blocks of a transfer less one, 0 to 31. A start sets it to those that it has, which may be fewer than
/// were asked for: see [`ADTT`].
pub const MBTC0: u16 = 0x12;
/// w: one of [`SCT`], [`ADTT`] and [`SIGT`].
pub const ASTRG: u16 = 0x17;
/// rw: [`APKTEN`] to [`A0IEN`].
pub const ASCTRL: u16 = 0x18;
/// r: T, the block that is served next.
pub const TBL: u16 = 0x24;
/// r: 0.
pub const TBH: u16 = 0x25;
/// r: [`FPKT`] and [`APKT`].
pub const MISS2: u16 = 0x30;
/// rw.
pub const ATERR: u16 = 0x31;
/// rw.
pub const ATINT: u16 = 0x32;
/// rw: the byte count's low byte. With [`STWCEN`] a start sets it and [`ATBHI`] to all its bytes, 2 to 65,534.
pub const ATBLO: u16 = 0x34;
/// rw: its high byte.
pub const ATBHI: u16 = 0x35;
/// w: the status, [`DRDY`], [`DSC`], [`CORR`] and [`CHECK`].
pub const ATSTA: u16 = 0x37;
/// r: the last command.
pub const ATCMD: u16 = 0x37;
/// r: the status, HIRQ kept.
pub const STATUS: u16 = 0x38;
/// r: the block that was filled last.
pub const LDDBL: u16 = 0x3A;
/// r: 0.
pub const LDDBH: u16 = 0x3B;
/// w: [`DSC`] or 0, what a packet command makes of it.
pub const APKSTA: u16 = 0x3D;
/// w: what completion makes of [`DRDY`], [`CORR`] and [`CHECK`].
pub const ASCSTA: u16 = 0x3E;
/// r: [`STAERR`] and [`HCEI`] of the last sector that was stored.
pub const TARSTA: u16 = 0x80;
/// rw: [`BLIMEN`] and [`BLIMS`].
pub const BICCTL: u16 = 0x9A;
/// w: 0 to the ring's blocks less 2.
pub const BUFLIM: u16 = 0x9B;
/// r: filled blocks.
pub const BUFC: u16 = 0x9B;
/// rw: [`ATTEN`], [`ACMEN`], [`TCINCEN`] and [`ATLIM`].
pub const ACCTL: u16 = 0x9C;
/// rw: good blocks; a write may only lower it.
pub const TCC: u16 = 0x9D;
/// w: skips so many of the oldest good blocks.
pub const SKIPC: u16 = 0x9E;
/// rw: blocks that are to be transferred in all.
pub const TTC: u16 = 0x9F;

/// [`CTRL0`]: decoding is on.
pub const DECEN: u16 = 0x80;

/// [`ASTRG`]: status completion.
pub const SCT: u16 = 0x01;
/// [`ASTRG`]: start a transfer.
///
/// It has [`MBTC0`] plus one blocks where [`TTC`] is 0, else the least of [`ATLIM`], [`TCC`] and [`TTC`]; but at most
/// so many that their bytes, blocks times the window's words times 2, do not pass 65,534: 31 of 1,024 words, 27 of
/// 1,176, and 32 of up to 1,023, which is no bound. So it is with and without [`STWCEN`], and where it starts by itself.
/// Fewer good blocks are [`TooFew`](crate::Refusal::TooFew), and leave [`MBTC0`] as it was; else that becomes the blocks
/// less one.
pub const ADTT: u16 = 0x04;
/// [`ASTRG`]: signature.
pub const SIGT: u16 = 0x10;

/// [`ASCTRL`]: the packet command begins a packet.
pub const APKTEN: u16 = 0x80;
/// [`ASCTRL`]: at the end of a transfer or packet DRQ falls and BSY rises.
pub const ADCEN: u16 = 0x40;
/// [`ASCTRL`]: then completion by itself; needs [`ADCEN`].
pub const ASCEN: u16 = 0x20;
/// [`ASCTRL`]: completion sets [`APKTEN`].
pub const AUTOEN: u16 = 0x10;
/// [`ASCTRL`]: a start sets [`ATBLO`] and [`ATBHI`].
pub const STWCEN: u16 = 0x08;
/// [`ASCTRL`]: the packet command raises HIRQ.
pub const A0IEN: u16 = 0x01;

/// [`MISS2`]: the packet is full.
pub const FPKT: u16 = 0x02;
/// [`MISS2`]: a packet command came.
pub const APKT: u16 = 0x01;

/// Status: busy.
pub const BSY: u16 = 0x80;
/// Status and [`ASCSTA`]: the drive is ready.
pub const DRDY: u16 = 0x40;
/// Status and [`APKSTA`] (there ADSC): seek complete.
pub const DSC: u16 = 0x10;
/// Status: data is requested.
pub const DRQ: u16 = 0x08;
/// Status and [`ASCSTA`]: data was corrected.
pub const CORR: u16 = 0x04;
/// Status and [`ASCSTA`]: an error is to be looked up.
pub const CHECK: u16 = 0x01;

/// [`TARSTA`]: sync, mode or code is wrong. [`Facts`](crate::Facts) tells them apart.
pub const STAERR: u16 = 0x40;
/// [`TARSTA`]: another address than expected.
pub const HCEI: u16 = 0x01;

/// [`BICCTL`]: decoding needs it.
pub const BLIMEN: u16 = 0x20;
/// [`BICCTL`]: the stop is by [`BUFLIM`], not by the ring.
pub const BLIMS: u16 = 0x10;

/// [`ACCTL`]: transfers start by themselves.
pub const ATTEN: u16 = 0x80;
/// [`ACCTL`]: a transfer needs it, and so do [`SKIPC`] and [`TTC`].
pub const ACMEN: u16 = 0x40;
/// [`ACCTL`]: decoding needs it.
pub const TCINCEN: u16 = 0x20;
/// [`ACCTL`], its low five bits: the most blocks of a transfer where [`TTC`] is not 0; 0 is 32.
pub const ATLIM: u16 = 0x1F;

/// The command that begins a packet, with [`APKTEN`].
pub const PACKET_COMMAND: u16 = 0xA0;
