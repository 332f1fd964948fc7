use clause_db::list::ClauseList;
use clause_db::lit::Lit;
use std::test::Fail;

fn lit(var: u64, positive: bool) -> Lit {
    Lit { var, positive }
}

#[test]
fn keeps_clauses_by_number(rt: HostRuntime) -> Result<(), Fail> {
    let mut list = ClauseList::new(rt.alloc(), 3);
    assert_eq!(rt; list.len(), 0);
    list.add(&[lit(1, true), lit(3, false)])?;
    list.add(&[])?;
    list.add(&[lit(2, true)])?;
    assert_eq!(rt; list.vars(), 3);
    assert_eq!(rt; list.len(), 3);
    assert_eq!(rt; list.get(1), [lit(1, true), lit(3, false)].as_slice());
    assert!(rt; list.get(2).is_empty());
    assert_eq!(rt; list.get(3), [lit(2, true)].as_slice());
    assert_eq!(rt; lit(3, false).opposite(), lit(3, true));
    Ok(())
}
