-- What Hibernate 6 (i1_0) and 5 (issue0_, this_) ask of the tracker, with the values in place of ?; before each statement the HQL that it stands for.

-- from Issue i where i.project.id = 7 and i.state in ('open', 'new')
select i1_0.id,i1_0.assignee_id,i1_0.number,i1_0.project_id,i1_0.state,i1_0.title from issue i1_0 where i1_0.project_id=7 and i1_0.state in ('open','new');

-- select i.id, i.title from Issue i join i.project p where i.state = 'open'
select i1_0.id,i1_0.title from issue i1_0 join project p1_0 on p1_0.id=i1_0.project_id where i1_0.state='open';

-- from Issue i join fetch i.project p where p.archived = 0
select i1_0.id,i1_0.title,p1_0.id,p1_0.code from issue i1_0 join project p1_0 on p1_0.id=i1_0.project_id where p1_0.archived=0;

-- find(Issue.class, 99): reporter and assignee are eager
select i1_0.id,i1_0.title,a1_0.id,a1_0.login,r1_0.id,r1_0.login from issue i1_0 left join person a1_0 on a1_0.id=i1_0.assignee_id left join person r1_0 on r1_0.id=i1_0.reporter_id where i1_0.id=99;

-- select i.title from Issue i left join i.assignee a left join i.reporter r
select i1_0.title from issue i1_0 left join person a1_0 on a1_0.id=i1_0.assignee_id left join person r1_0 on r1_0.id=i1_0.reporter_id;

-- select distinct i from Issue i left join fetch i.labels
select distinct i1_0.id,i1_0.title,l1_0.issue_id,l1_1.id,l1_1.name from issue i1_0 left join (issue_label l1_0 join label l1_1 on l1_1.id=l1_0.label_id) on i1_0.id=l1_0.issue_id;

-- select distinct i.id, i.number from Issue i left join i.assignee a
select distinct i1_0.id,i1_0.number from issue i1_0 left join person a1_0 on a1_0.id=i1_0.assignee_id;

-- from Team t where t.lead.id = 5: a team is a party, joined with it
select t1_0.id,t1_1.name,t1_1.workspace_id,t1_0.lead_id from team t1_0 join party t1_1 on t1_0.id=t1_1.id where t1_0.lead_id=5;

-- select t.id, t.lead.id from Team t
select t1_0.id,t1_0.lead_id from team t1_0 join party t1_1 on t1_0.id=t1_1.id;

-- from Party p where p.workspace.id = 3: a party may be a person or a team
select p1_0.id,p1_0.name,p1_1.login,p1_1.email,p1_2.lead_id from party p1_0 left join person p1_1 on p1_0.id=p1_1.id left join team p1_2 on p1_0.id=p1_2.id where p1_0.workspace_id=3;

-- select p.name from Party p where p.workspace.id = 3
select p1_0.name from party p1_0 left join person p1_1 on p1_0.id=p1_1.id left join team p1_2 on p1_0.id=p1_2.id where p1_0.workspace_id=3;

-- from Issue i where (i.project.id, i.milestoneName) in (select m.project.id, m.name from Milestone m where m.dueOn < 20250101)
select i1_0.id,i1_0.title from issue i1_0 where (i1_0.project_id,i1_0.milestone_name) in (select m1_0.project_id,m1_0.name from milestone m1_0 where m1_0.due_on<20250101);

-- from Issue i where i.reporter in (select p from Person p)
select i1_0.id,i1_0.title from issue i1_0 where i1_0.reporter_id in (select p1_0.id from person p1_0);

-- from Issue i where i.project in (select p from Project p join p.workspace w where p.archived = 0)
select i1_0.id,i1_0.title from issue i1_0 where i1_0.project_id in (select p1_0.id from project p1_0 join workspace w1_0 on w1_0.id=p1_0.workspace_id where p1_0.archived=0);

-- select i.id from Issue i left join i.milestone m
select i1_0.id from issue i1_0 left join milestone m1_0 on m1_0.project_id=i1_0.project_id and m1_0.name=i1_0.milestone_name;

-- Hibernate 5: a criteria query with an eager reporter
select this_.id as id1_3_1_, this_.title as title4_3_1_, person2_.id as id1_5_0_, person2_.login as login2_5_0_ from issue this_ inner join person person2_ on this_.reporter_id=person2_.id where this_.state='open' and this_.opened_on between 20240101 and 20240630;

-- Hibernate 5: select i.title from Issue i, Project p where i.project = p and p.code = 'CORE'
select issue0_.title as col_0_0_ from issue issue0_, project project1_ where issue0_.project_id=project1_.id and project1_.code='CORE';

-- Hibernate 5: select i.title from Issue i, Project p where i.project = p
select issue0_.title as col_0_0_ from issue issue0_, project project1_ where issue0_.project_id=project1_.id;

-- select i.id from Project p right join Issue i on i.project = p
select i1_0.id from project p1_0 right join issue i1_0 on i1_0.project_id=p1_0.id;

-- select i.id from Issue i where i.parent.id is not null and i.parent.id <> 1
select i1_0.id from issue i1_0 where i1_0.parent_id is not null and i1_0.parent_id<>1;

-- Refused: Hibernate 5: select i.id from Issue i where i.project.code = 'CORE'
select issue0_.id as id1_3_ from issue issue0_ cross join project project1_ where issue0_.project_id=project1_.id and project1_.code='CORE';

-- Refused: from Issue i where i.state = :state, prepared
select i1_0.id,i1_0.title from issue i1_0 where i1_0.state=?;

-- Refused: select count(i) from Issue i
select count(i1_0.id) from issue i1_0;

-- Refused: from Issue i order by i.openedOn fetch first 20 rows
select i1_0.id,i1_0.title from issue i1_0 order by i1_0.opened_on fetch first 20 rows only;

-- Refused: from Issue i where i.watchers is empty
select i1_0.id from issue i1_0 where not exists(select 1 from watch w1_0 where i1_0.id=w1_0.issue_id);

-- Refused: a criteria query to which nothing was added
select i1_0.id,i1_0.title from issue i1_0 where 1=1;

-- Refused: from Issue i where (i.project.id, i.number) in ((7, 1), (7, 2))
select i1_0.id from issue i1_0 where (i1_0.project_id,i1_0.number) in ((7,1),(7,2));
