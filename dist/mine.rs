use kioskbasil::{Bus, Shape};

fn main() -> Result<(), Box<dyn std::error::Error>> {
    let (mut senders, mut receivers) = Bus::open_ring(Shape::of(2, 1))?;
    senders[0].send_all(["one", "two"])?;
    senders[0].end_order()?;
    for item in receivers[0].by_ref() {
        println!("{} says {}", item.sender, String::from_utf8_lossy(&item));
    }
    Ok(())
}
