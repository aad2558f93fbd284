from keltuvar import Pool, Refused

with Pool("crates/mp_main/out/mp_main") as pool:
    pool.out("g0", 100)
    pool.tx("a", inputs=["g0"], outputs=[70, 30])
    pool.tx("b", inputs=["a.0"], outputs=[70])
    try:
        pool.submit("b")
    except Refused as refused:
        print(refused)
    print(pool.submit("a"), pool.submit("b"), pool.snapshot().size)
    for item in pool.snapshot().items:
        print(item.ticket, item.name)
