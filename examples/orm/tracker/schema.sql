-- A tracker of issues: its service is written with Hibernate, its reports with SQLAlchemy.

CREATE TABLE workspace (
    id BIGINT NOT NULL,
    slug VARCHAR(64) NOT NULL,
    CONSTRAINT pk_workspace PRIMARY KEY (id),
    CONSTRAINT uq_workspace_slug UNIQUE (slug)
);

-- Parties are persons or teams, one table each; the key of either is that of the party.
CREATE TABLE party (
    id BIGINT NOT NULL PRIMARY KEY,
    workspace_id BIGINT NOT NULL REFERENCES workspace (id),
    name VARCHAR(120) NOT NULL
);

CREATE TABLE person (
    id BIGINT NOT NULL PRIMARY KEY REFERENCES party (id),
    login VARCHAR(40) NOT NULL UNIQUE,
    email VARCHAR(255)
);

CREATE TABLE team (
    id BIGINT NOT NULL PRIMARY KEY REFERENCES party (id),
    lead_id BIGINT REFERENCES person (id)
);

CREATE TABLE project (
    id BIGINT NOT NULL PRIMARY KEY,
    workspace_id BIGINT NOT NULL REFERENCES workspace (id),
    code VARCHAR(12) NOT NULL UNIQUE,
    owner_id BIGINT NOT NULL REFERENCES party (id),
    archived SMALLINT NOT NULL
);

-- A milestone is named within its project.
CREATE TABLE milestone (
    project_id BIGINT NOT NULL REFERENCES project (id),
    name VARCHAR(40) NOT NULL,
    due_on INTEGER,
    CONSTRAINT pk_milestone PRIMARY KEY (project_id, name)
);

CREATE TABLE issue (
    id BIGINT NOT NULL PRIMARY KEY,
    project_id BIGINT NOT NULL REFERENCES project (id),
    number INTEGER NOT NULL,
    title VARCHAR(200) NOT NULL,
    state VARCHAR(10) NOT NULL,
    reporter_id BIGINT NOT NULL REFERENCES person (id),
    assignee_id BIGINT REFERENCES person (id),
    milestone_name VARCHAR(40),
    parent_id BIGINT REFERENCES issue (id),
    opened_on INTEGER NOT NULL,
    CONSTRAINT uq_issue_number UNIQUE (project_id, number),
    CONSTRAINT fk_issue_milestone FOREIGN KEY (project_id, milestone_name) REFERENCES milestone (project_id, name)
);

CREATE TABLE label (
    id BIGINT NOT NULL PRIMARY KEY,
    project_id BIGINT NOT NULL REFERENCES project (id),
    name VARCHAR(40) NOT NULL,
    CONSTRAINT uq_label_name UNIQUE (project_id, name)
);

CREATE TABLE issue_label (
    issue_id BIGINT NOT NULL REFERENCES issue (id) ON DELETE CASCADE,
    label_id BIGINT NOT NULL REFERENCES label (id) ON DELETE CASCADE,
    PRIMARY KEY (issue_id, label_id)
);

CREATE TABLE comment (
    id BIGINT NOT NULL PRIMARY KEY,
    issue_id BIGINT NOT NULL REFERENCES issue (id) ON DELETE CASCADE,
    author_id BIGINT REFERENCES person (id) ON DELETE SET NULL,
    written_on INTEGER NOT NULL,
    body TEXT
);

CREATE TABLE watch (
    issue_id BIGINT NOT NULL REFERENCES issue (id) ON DELETE CASCADE,
    person_id BIGINT NOT NULL REFERENCES person (id) ON DELETE CASCADE,
    PRIMARY KEY (issue_id, person_id)
)
