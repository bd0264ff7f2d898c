//! The scope paper's table P: a tenant waits for a payment, the payment comes, the two match.

use gevnyusto::{Matcher, Refusal};

/// Channel 0 leaves, channel 1 waits; chord 0 joins one of each with equal property numbers.
const TABLE_P: [u8; 20] = [2, 0, 1, 0, 2, 0, 12, 0, 14, 0, 18, 0, 0, 1, 0, 0, 2, 1, 0, 1];

/// Steps a sender until a step is refused, and says what each step did.
fn run(matcher: &mut Matcher, sender: u16) -> Refusal {
    loop {
        match matcher.step(sender) {
            Ok(answer) => println!("  sender {sender}: {answer}"),
            Err(refusal) => return refusal,
        }
    }
}

fn main() -> Result<(), Refusal> {
    let mut matcher = Matcher::open(TABLE_P)?;
    println!("sender 0 waits at channel 1 for property 7: {}", matcher.add(0, 1, 7, 0, 0, 0)?);
    println!("  sender 0 rests: {}", run(&mut matcher, 0));
    println!("sender 1 leaves 5000 cents for property 7: {}", matcher.add(1, 0, 7, 5000, 0, 0)?);
    println!("  sender 1 rests: {}", run(&mut matcher, 1));
    println!("sender 0 was signalled");
    println!("  sender 0 rests: {}", run(&mut matcher, 0));

    let slip = matcher.reply(0)?.expect("sender 0 was answered");
    let read = matcher.match_(slip)?;
    println!(
        "slip of sender 0: match {slip}, chord {}, {} cents, messages {:?}",
        read.chord, read.cents, read.messages
    );
    println!("quiet: {}", matcher.quiet()?);
    println!("match 1: {}", matcher.match_(1).unwrap_err());
    Ok(())
}
