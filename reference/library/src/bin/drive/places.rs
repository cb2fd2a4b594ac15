//! Each of 128 places: a bill is found, renewed, answered and cancelled wherever it stands.

use clearing::Request;
use reference::groups::{self, Amounts};
use reference::journal::REQUEST;
use reference::verdict::Notification;
use reference::{words, Bill, Ledger};

use crate::base::full;
use crate::both::Both;
use crate::call::Call;
use crate::tally::Tally;

pub fn drive(tally: &mut Tally) -> Result<(), String> {
    let words = full();
    let ledger = words::read(&words).ok_or("128 bills: drive itself takes them for unsound")?;
    for (place, bill) in ledger.bills().iter().enumerate() {
        for call in calls(&ledger, bill) {
            let told = |told: String| format!("place {place} of 128 bills: {told}");
            Both::of(&words).plain(tally, &call).map_err(told)?;
        }
    }
    Ok(())
}

fn calls(ledger: &Ledger, bill: &Bill) -> [Call; 9] {
    let (account, key) = (bill.identity.account(), bill.identity.key());
    let amounts = Amounts { charge: 4000, applied: 1, owed: 3999, balance: 0 };
    let kind = if ledger.is_open(bill) { Notification::Rsp } else { Notification::Sup };
    let request = Request {
        code: *bill.rate_code.bytes(),
        account,
        key,
        product: bill.product.letter(),
        billing: 20171110,
        from: 20171010,
        consumption: 91,
        scheduled: 20171115,
    };
    // 128 bills are held, so that another is refused (3).
    let another = Request { account: 400, ..request.clone() };
    let as_entry = groups::entry(REQUEST, b"ZZC400000000004000007B2017111020171010000000009120171115");
    [
        Call::OpenBill { account },
        Call::Amounts { account, key },
        Call::Calendar { request: request.clone(), number: 9, holidays: vec![20171115] },
        Call::Calendar { request: another, number: 1, holidays: vec![] },
        Call::Entry { journal: as_entry, seen: 1 },
        Call::Request(request),
        Call::File(groups::file(&[groups::group(bill, kind, amounts, ledger.today())])),
        Call::Cancel { account, key },
        Call::Removal { account, date: 20171110 },
    ]
}
