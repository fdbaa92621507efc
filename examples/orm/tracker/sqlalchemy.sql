-- What SQLAlchemy asks of the tracker, with the values in place of parameters; before each statement the Python that it stands for.

-- select(Issue.id, Issue.title).where(Issue.project_id == 7)
SELECT issue.id, issue.title
FROM issue
WHERE issue.project_id = 7;

-- session.query(Issue).options(joinedload(Issue.assignee)).filter(Issue.state == "open")
SELECT issue.id AS issue_id, issue.title AS issue_title, person_1.id AS person_1_id, person_1.login AS person_1_login
FROM issue LEFT OUTER JOIN person AS person_1 ON person_1.id = issue.assignee_id
WHERE issue.state = 'open';

-- session.query(Issue).options(joinedload(Issue.reporter)): it is optional to the mapper alone
SELECT issue.id AS issue_id, issue.title AS issue_title, person_1.id AS person_1_id, person_1.login AS person_1_login
FROM issue LEFT OUTER JOIN person AS person_1 ON person_1.id = issue.reporter_id;

-- session.query(Issue.id, Issue.title).outerjoin(Issue.assignee).outerjoin(Issue.project)
SELECT issue.id AS issue_id, issue.title AS issue_title
FROM issue LEFT OUTER JOIN person ON person.id = issue.assignee_id LEFT OUTER JOIN project ON project.id = issue.project_id;

-- session.query(Team): joined inheritance
SELECT team.id AS team_id, party.id AS party_id, party.workspace_id AS party_workspace_id, party.name AS party_name, team.lead_id AS team_lead_id
FROM party JOIN team ON party.id = team.id;

-- session.query(Team.id, Team.lead_id)
SELECT team.id AS team_id, team.lead_id AS team_lead_id
FROM party JOIN team ON party.id = team.id;

-- session.query(Person.login).filter(Party.workspace_id == 3)
SELECT person.login AS person_login
FROM party JOIN person ON party.id = person.id
WHERE party.workspace_id = 3;

-- the query of subqueryload(Issue.comments)
SELECT comment.id AS comment_id, comment.issue_id AS comment_issue_id, comment.body AS comment_body, anon_1.issue_id AS anon_1_issue_id
FROM (SELECT issue.id AS issue_id
FROM issue
WHERE issue.project_id = 7) AS anon_1 JOIN comment ON anon_1.issue_id = comment.issue_id;

-- the query of subqueryload(Issue.reporter)
SELECT person.id AS person_id, person.login AS person_login, anon_1.issue_reporter_id AS anon_1_issue_reporter_id
FROM (SELECT DISTINCT issue.reporter_id AS issue_reporter_id
FROM issue) AS anon_1 JOIN person ON person.id = anon_1.issue_reporter_id;

-- select(sub.c.name), sub being the names of labels with the issues that have them
SELECT anon_1.name AS anon_1_name
FROM (SELECT label.name AS name, issue_label.issue_id AS issue_id
FROM issue_label JOIN label ON label.id = issue_label.label_id) AS anon_1;

-- select(sub.c.id).where(sub.c.state != "closed"), sub being the issues of a project
SELECT anon_1.id AS anon_1_id
FROM (SELECT issue.id AS id, issue.state AS state
FROM issue
WHERE issue.project_id = 7) AS anon_1
WHERE anon_1.state != 'closed';

-- select(Comment.id).where(Comment.issue_id.in_(select(Issue.id)))
SELECT comment.id
FROM comment
WHERE comment.issue_id IN (SELECT issue.id
FROM issue);

-- select(Comment.id).where(Comment.issue_id.in_(select(Issue.id).distinct().where(Issue.state == "open")))
SELECT comment.id
FROM comment
WHERE comment.issue_id IN (SELECT DISTINCT issue.id
FROM issue
WHERE issue.state = 'open');

-- open_projects = select(Project.id).where(Project.archived == 0), asked for by two filters
SELECT issue.id
FROM issue
WHERE issue.project_id IN (SELECT project.id
FROM project
WHERE project.archived = 0) AND issue.project_id IN (SELECT project.id
FROM project
WHERE project.archived = 0);

-- select(Issue.id).join(Issue.project).join(Project.workspace).where(Workspace.slug == "north")
SELECT issue.id
FROM issue JOIN project ON project.id = issue.project_id JOIN workspace ON workspace.id = project.workspace_id
WHERE workspace.slug = 'north';

-- select(Issue.id, Project.code).join(Issue.project).join(Project.workspace)
SELECT issue.id, project.code
FROM issue JOIN project ON project.id = issue.project_id JOIN workspace ON workspace.id = project.workspace_id;

-- select(Issue.id, Workspace.slug).join(Issue.project).join(Issue.reporter).join(Project.workspace)
SELECT issue.id, workspace.slug
FROM issue JOIN project ON project.id = issue.project_id JOIN person ON person.id = issue.reporter_id JOIN workspace ON workspace.id = project.workspace_id;

-- select(Watch.issue_id).distinct().join(Person)
SELECT DISTINCT watch.issue_id
FROM watch JOIN person ON person.id = watch.person_id;

-- select(Watch.issue_id, Watch.person_id).distinct()
SELECT DISTINCT watch.issue_id, watch.person_id
FROM watch;

-- select(parent.title).select_from(Issue).join(parent, Issue.parent_id == parent.id)
SELECT issue_1.title
FROM issue JOIN issue AS issue_1 ON issue.parent_id = issue_1.id;

-- select(other.title).select_from(Issue).join(other, Issue.id == other.id)
SELECT issue_1.title
FROM issue JOIN issue AS issue_1 ON issue.id = issue_1.id;

-- the same where Issue.project_id == 7
SELECT issue_1.title
FROM issue JOIN issue AS issue_1 ON issue.id = issue_1.id
WHERE issue.project_id = 7;

-- select(distinct(sub.c.reporter_id)), sub being the pairs of reporter and project
SELECT DISTINCT anon_1.reporter_id
FROM (SELECT DISTINCT issue.reporter_id AS reporter_id, issue.project_id AS project_id
FROM issue) AS anon_1;

-- select(Issue.title, Label.name).where(..), tables without a join
SELECT issue.title, label.name
FROM issue, issue_label, label
WHERE issue.id = issue_label.issue_id AND label.id = issue_label.label_id AND issue.state = 'open';

-- Refused: Issue.labels.any(Label.name == "bug")
SELECT issue.id
FROM issue
WHERE EXISTS (SELECT 1
FROM issue_label, label
WHERE issue.id = issue_label.issue_id AND label.id = issue_label.label_id AND label.name = 'bug');

-- Refused: select(func.count()).select_from(Issue)
SELECT count(*) AS count_1
FROM issue;

-- Refused: select(Issue.id).where(Issue.state == bindparam("state"))
SELECT issue.id
FROM issue
WHERE issue.state = :state_1;

-- Refused: a count for each project
SELECT project.id, (SELECT count(issue.id) AS count_1
FROM issue
WHERE issue.project_id = project.id) AS anon_1
FROM project;

-- Refused: select(Issue.id).where(or_(Issue.state == "new", Issue.id.in_(select(Watch.issue_id))))
SELECT issue.id
FROM issue
WHERE issue.state = 'new' OR issue.id IN (SELECT watch.issue_id
FROM watch);

-- Refused: union_all(select(Issue.reporter_id), select(Issue.assignee_id))
SELECT issue.reporter_id
FROM issue UNION ALL SELECT issue.assignee_id
FROM issue;

-- Refused: select(sub.c.id), sub being a cte
WITH anon_1 AS (SELECT issue.id AS id
FROM issue)
 SELECT anon_1.id
FROM anon_1;

-- Refused: select(Issue.project_id).group_by(Issue.project_id)
SELECT issue.project_id
FROM issue GROUP BY issue.project_id;
