"""The procedures of bench/workloads/*.app as functions on a `Run` of small_node.py, one for each."""
from small_node import needed


def customer_of(db, name):
    return needed(db.get("account", name), "no such name").customer


def savings_of(db, customer):
    return needed(db.get("saving", customer), "no savings").balance


def checks_of(db, customer):
    return needed(db.get("checking", customer), "no checking account").balance


def open_customer(db, name, customer, savings, checks):
    db.insert("account", name, customer)
    db.insert("saving", customer, savings)
    db.insert("checking", customer, checks)


def balance(db, name):
    customer = customer_of(db, name)
    return savings_of(db, customer) + checks_of(db, customer)


def balance_kept(db, name, call):
    db.insert("answer", call, balance(db, name))


def deposit_checking(db, name, amount):
    if amount < 0:
        db.fail("negative")
    customer = customer_of(db, name)
    db.update("checking", customer, balance=checks_of(db, customer) + amount)


def transact_saving(db, name, amount):
    customer = customer_of(db, name)
    after = savings_of(db, customer) + amount
    if after < 0:
        db.fail("savings below zero")
    db.update("saving", customer, balance=after)


def amalgamate(db, first, second):
    a, b = customer_of(db, first), customer_of(db, second)
    moved = savings_of(db, a) + checks_of(db, a)
    before = checks_of(db, b)
    db.update("saving", a, balance=0)
    db.update("checking", a, balance=0)
    db.update("checking", b, balance=before + moved)


def write_check(db, name, amount):
    customer = customer_of(db, name)
    savings, checks = savings_of(db, customer), checks_of(db, customer)
    db.update("checking", customer, balance=checks - amount - (savings + checks < amount))


def send_payment(db, payer, payee, amount):
    a, b = customer_of(db, payer), customer_of(db, payee)
    paying, paid = checks_of(db, a), checks_of(db, b)
    if paying < amount:
        db.fail("not covered")
    db.update("checking", a, balance=paying - amount)
    db.update("checking", b, balance=paid + amount)


SMALLBANK = {"open": open_customer} | {
    procedure.__name__: procedure
    for procedure in (balance, balance_kept, deposit_checking, transact_saving, amalgamate, write_check, send_payment)
}


def read_record(db, number):
    return needed(db.get("usertable", number), "no record")


def read_kept(db, number, call):
    db.insert("answer", call, number, read_record(db, number).field0)


def scan(db, first, count):
    return db.span("usertable", "key_number", first, first + count - 1)


def scan_kept(db, first, count, call):
    for record in scan(db, first, count):
        db.insert("answer", call, record.key_number, record.field0)


def change(db, number, field, value):
    db.update("usertable", number, **{f"field{field}": value})


def read_modify_write(db, number, field, value):
    read_record(db, number)
    change(db, number, field, value)


YCSB = {
    "add": lambda db, *record: db.insert("usertable", *record),
    "read": read_record,
    "read_kept": read_kept,
    "scan": scan,
    "scan_kept": scan_kept,
    "change": change,
    "read_modify_write": read_modify_write,
}


def complex_join(db, number, family):
    total = 0
    for part in db.span("part", "family", family, family):
        total += sum(part.price * stock.pieces for stock in db.span("stock", "part", part.id, part.id))
    db.insert("joined", number, family, total)


def complex_group(db, number, family):
    most, most_part = -1, 0
    for part in db.span("part", "family", family, family):
        pieces = sum(stock.pieces for stock in db.span("stock", "part", part.id, part.id))
        if pieces > most:
            most, most_part = pieces, part.id
    db.insert("best", number, family, most_part, most)


CONTRACTS = {
    "add_part": lambda db, *part: db.insert("part", *part),
    "add_stock": lambda db, *stock: db.insert("stock", *stock),
    "simple": lambda db, *entry: db.insert("entry", *entry),
    "complex_join": complex_join,
    "complex_group": complex_group,
    "restock": lambda db, stock, pieces: db.update("stock", stock, pieces=pieces),
}

ORDERS_OF_A_DISTRICT = 10_000_000


def add_district(db, number, warehouse, name, tax):
    db.insert("district", number, warehouse, name, tax, 0, 1)
    db.insert("oldest", number, warehouse, 1)


def add_customer(db, number, district, first, last, group, credit, discount):
    db.insert("customer", number, district, first, last, group, credit, discount, -1000, 1000, 1, 0)


def lines_in(codes, count):
    """The lines of an order, each an item, a supplying warehouse and a quantity."""
    halves = [half for code in codes for half in (code % 2**31, code // 2**31)]
    return [(half // 16384, half // 16 % 1024, half % 16) for half in halves[:count]]


def order_line(db, order, place, warehouse, line):
    number, supplier, quantity = line
    item = needed(db.get("item", number), "no item")
    stock = needed(db.get("stock", supplier, number), "no stock")
    left = stock.quantity - quantity
    left += 91 if left < 10 else 0
    changes = {"quantity": left, "sold": stock.sold + quantity, "orders": stock.orders + 1, "remote": stock.remote + (supplier != warehouse)}
    db.update("stock", supplier, number, **changes)
    db.insert("order_line", order, place, number, supplier, 0, quantity, quantity * item.price)


def new_order(db, warehouse, district, customer, count, is_local, *codes):
    needed(db.get("warehouse", warehouse), "no warehouse")
    found = needed(db.get("district", district), "no district")
    needed(db.get("customer", customer), "no customer")
    db.update("district", district, next_order=found.next_order + 1)
    order = district * ORDERS_OF_A_DISTRICT + found.next_order
    db.insert("orders", order, customer, db.now, 0, count, is_local)
    db.insert("new_order", order)
    lines = lines_in(codes, count)
    for place in db.span("place", "nr", 1, count):
        order_line(db, order, place.nr, warehouse, lines[place.nr - 1])


def paid_by(db, at, district, customer, amount):
    """The writes of a payment, at a warehouse and a district as they were."""
    db.update("warehouse", at.id, paid=at.paid + amount)
    db.update("district", district.id, paid=district.paid + amount)
    changes = {"balance": customer.balance - amount, "paid": customer.paid + amount, "payments": customer.payments + 1}
    db.update("customer", customer.id, **changes)
    db.insert("history", customer.id, customer.payments, district.id, db.now, amount)


def payment(db, warehouse, district, customer, amount):
    at = needed(db.get("warehouse", warehouse), "no warehouse")
    found = needed(db.get("district", district), "no district")
    paid_by(db, at, found, needed(db.get("customer", customer), "no customer"), amount)


def payment_by_name(db, warehouse, district, group, amount):
    at = needed(db.get("warehouse", warehouse), "no warehouse")
    found = needed(db.get("district", district), "no district")
    count = len(db.span("customer", "name_group", group, group))
    if count == 0:
        db.fail("no customer")
    same = db.span("customer", "name_group", group, group)
    paid_by(db, at, found, same[(count + 1) // 2 - 1], amount)


def deliver(db, place, carrier):
    """The oldest new order of a district, if it has one."""
    order = place.district * ORDERS_OF_A_DISTRICT + place.nr
    if db.get("new_order", order) is None:
        return
    found = needed(db.get("orders", order), "no order")
    total = 0
    for line in db.span("order_line", "orders", order, order):
        db.update("order_line", order, line.nr, delivered=db.now)
        total += line.amount
    customer = needed(db.get("customer", found.customer), "no customer")
    db.delete("new_order", order)
    db.update("orders", order, carrier=carrier)
    db.update("customer", found.customer, balance=customer.balance + total, deliveries=customer.deliveries + 1)
    db.update("oldest", place.district, nr=place.nr + 1)


def delivery(db, warehouse, carrier):
    for place in db.span("oldest", "warehouse", warehouse, warehouse):
        deliver(db, place, carrier)


TPCC = {
    "add_place": lambda db, *place: db.insert("place", *place),
    "add_warehouse": lambda db, number, name, tax: db.insert("warehouse", number, name, tax, 0),
    "add_district": add_district,
    "add_customer": add_customer,
    "add_item": lambda db, *item: db.insert("item", *item),
    "add_stock": lambda db, warehouse, item, quantity: db.insert("stock", warehouse, item, quantity, 0, 0, 0),
    "new_order": new_order,
    "payment": payment,
    "payment_by_name": payment_by_name,
    "delivery": delivery,
}

PROCEDURES = {"smallbank.app": SMALLBANK, "ycsb.app": YCSB, "contracts.app": CONTRACTS, "tpcc.app": TPCC}
