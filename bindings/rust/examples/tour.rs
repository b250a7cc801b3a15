//! Pack a read, reverse it, compare, glue, store, read back, count a stretch's flags.

use tsivelaro::{bases, counts, flags, form, Chars, Refusal};

fn main() -> Result<(), Refusal> {
    let read = b"ACGTNACG";
    let (mut base_buffer, mut flag_buffer) = ([0; 128], [0; 128]);
    let mut track = bases::Store::clear(&mut base_buffer)?;
    let mut marks = flags::Store::clear(&mut flag_buffer)?;
    track.push_ascii(read)?;
    marks.push_ascii(read)?;

    let mut reverse_buffer = [0; 64];
    let reverse = track.view().to_revcomp(&mut reverse_buffer)?;
    let mut letters = [0; 8];
    reverse.unpack(&mut letters)?;
    println!("reverse complement {}", String::from_utf8_lossy(&letters));
    println!("order {:?}", track.view().compare(reverse)?.0);

    let pushed = track.push_seq(reverse)?;
    println!("glued from {} to {}", pushed.start.0, pushed.end.0);
    track.cut(Chars(8))?;

    let mut stored = [0; 64];
    let size = form::write(track.view(), marks.view(), &mut stored)?;
    println!("stored {:02x?}", &stored[..size]);

    let (mut base_again, mut flag_again) = ([0; 64], [0; 64]);
    let len = form::read(&stored[..size], &mut base_again, &mut flag_again)?;
    let again = bases::View::new(&base_again, Chars(0), len)?;
    println!("read back {}", again.compare(track.view())?.0.is_eq());

    let (mut count_buffer, mut entries) = ([0; 64], [0; 1]);
    let mut counted = counts::Store::clear(&mut count_buffer, &mut entries)?;
    counted.push_ascii(b"ACNNGTN")?;
    let stretch = counted.count(Chars(1), Chars(4))?;
    println!(
        "ambiguous {:?} in all, {stretch} from 1 to 4",
        counted.entries()
    );

    match track.cut(Chars(9)) {
        Err(refusal) => println!("refused {} {refusal}", refusal.number()),
        Ok(()) => unreachable!(),
    }
    Ok(())
}
