-- What ActiveRecord asks of the shop, with the values in place of $1; before each statement the Ruby that it stands for.

-- Order.where(customer_id: 42)
SELECT "orders".* FROM "orders" WHERE "orders"."customer_id" = 42;

-- Order.joins(:customer).where(status: "paid")
SELECT "orders".* FROM "orders" INNER JOIN "customers" ON "customers"."id" = "orders"."customer_id" WHERE "orders"."status" = 'paid';

-- Order.joins(:customer).where(customers: { vip: 1 })
SELECT "orders".* FROM "orders" INNER JOIN "customers" ON "customers"."id" = "orders"."customer_id" WHERE "customers"."vip" = 1;

-- Order.eager_load(:customer).where(status: "open")
SELECT "orders"."id" AS t0_r0, "orders"."number" AS t0_r1, "orders"."customer_id" AS t0_r2, "orders"."status" AS t0_r3, "customers"."id" AS t1_r0, "customers"."email" AS t1_r1, "customers"."name" AS t1_r2 FROM "orders" LEFT OUTER JOIN "customers" ON "customers"."id" = "orders"."customer_id" WHERE "orders"."status" = 'open';

-- Product.eager_load(:supplier).where(category_id: 4)
SELECT "products"."id" AS t0_r0, "products"."title" AS t0_r1, "suppliers"."id" AS t1_r0, "suppliers"."name" AS t1_r1 FROM "products" LEFT OUTER JOIN "suppliers" ON "suppliers"."id" = "products"."supplier_id" WHERE "products"."category_id" = 4;

-- Order.left_outer_joins(:payment).distinct
SELECT DISTINCT "orders".* FROM "orders" LEFT OUTER JOIN "payments" ON "payments"."order_id" = "orders"."id";

-- Order.eager_load(:customer).distinct.pluck(:id)
SELECT DISTINCT "orders"."id" FROM "orders" LEFT OUTER JOIN "customers" ON "customers"."id" = "orders"."customer_id";

-- Order.left_outer_joins(:line_items).where(placed_on: 20240101..20240331).distinct
SELECT DISTINCT "orders".* FROM "orders" LEFT OUTER JOIN "line_items" ON "line_items"."order_id" = "orders"."id" WHERE "orders"."placed_on" BETWEEN 20240101 AND 20240331;

-- Customer.joins(:orders).merge(Order.paid).distinct
SELECT DISTINCT "customers".* FROM "customers" INNER JOIN "orders" ON "orders"."customer_id" = "customers"."id" WHERE "orders"."status" = 'paid';

-- Order.where(customer: Customer.all)
SELECT "orders".* FROM "orders" WHERE "orders"."customer_id" IN (SELECT "customers"."id" FROM "customers");

-- Order.where(customer: Customer.where(vip: 1))
SELECT "orders".* FROM "orders" WHERE "orders"."customer_id" IN (SELECT "customers"."id" FROM "customers" WHERE "customers"."vip" = 1);

-- Product.where(supplier: Supplier.all)
SELECT "products".* FROM "products" WHERE "products"."supplier_id" IN (SELECT "suppliers"."id" FROM "suppliers");

-- order.products
SELECT "products".* FROM "products" INNER JOIN "line_items" ON "products"."id" = "line_items"."product_id" WHERE "line_items"."order_id" = 12;

-- LineItem.joins(order: :customer).where(product_id: 7)
SELECT "line_items".* FROM "line_items" INNER JOIN "orders" ON "orders"."id" = "line_items"."order_id" INNER JOIN "customers" ON "customers"."id" = "orders"."customer_id" WHERE "line_items"."product_id" = 7;

-- LineItem.joins(order: :customer).where(customers: { country_id: 3 })
SELECT "line_items".* FROM "line_items" INNER JOIN "orders" ON "orders"."id" = "line_items"."order_id" INNER JOIN "customers" ON "customers"."id" = "orders"."customer_id" WHERE "customers"."country_id" = 3;

-- LineItem.joins(:order).where("quantity > 10").pluck("orders.id")
SELECT orders.id FROM "line_items" INNER JOIN "orders" ON "orders"."id" = "line_items"."order_id" WHERE (quantity > 10);

-- Customer.joins(:referrer)
SELECT "customers".* FROM "customers" INNER JOIN "customers" "referrers_customers" ON "referrers_customers"."id" = "customers"."referrer_id";

-- Customer.left_outer_joins(:referrer)
SELECT "customers".* FROM "customers" LEFT OUTER JOIN "customers" "referrers_customers" ON "referrers_customers"."id" = "customers"."referrer_id";

-- Order.where.missing(:payment)
SELECT "orders".* FROM "orders" LEFT OUTER JOIN "payments" ON "payments"."order_id" = "orders"."id" WHERE "payments"."id" IS NULL;

-- Customer.where(id: Order.paid.select(:customer_id).distinct)
SELECT "customers".* FROM "customers" WHERE "customers"."id" IN (SELECT DISTINCT "orders"."customer_id" FROM "orders" WHERE "orders"."status" = 'paid');

-- Product.visible.visible.select(:id)
SELECT "products"."id" FROM "products" WHERE "products"."discontinued" = 0 AND "products"."discontinued" = 0;

-- Product.visible.where(category_id: 4).visible
SELECT "products".* FROM "products" WHERE "products"."discontinued" = 0 AND "products"."category_id" = 4 AND "products"."discontinued" = 0;

-- Order.where(id: Order.open)
SELECT "orders".* FROM "orders" WHERE "orders"."id" IN (SELECT "orders"."id" FROM "orders" WHERE "orders"."status" = 'open');

-- Order.from(Order.paid, :orders).select(:id, :number)
SELECT "orders"."id", "orders"."number" FROM (SELECT "orders".* FROM "orders" WHERE "orders"."status" = 'paid') orders;

-- Product.where(supplier_id: [3, nil])
SELECT "products".* FROM "products" WHERE ("products"."supplier_id" = 3 OR "products"."supplier_id" IS NULL);

-- Order.preload(:line_items), its second statement
SELECT "line_items".* FROM "line_items" WHERE "line_items"."order_id" IN (11, 12, 15);

-- Refused: Order.open.order(placed_on: :desc).limit(20)
SELECT "orders".* FROM "orders" WHERE "orders"."status" = 'open' ORDER BY "orders"."placed_on" DESC LIMIT 20;

-- Refused: Customer.find_by(email: ..), prepared
SELECT "customers".* FROM "customers" WHERE "customers"."email" = $1 LIMIT $2;

-- Refused: Order.open.count
SELECT COUNT(*) FROM "orders" WHERE "orders"."status" = 'open';

-- Refused: Customer.exists?(email: "ida@example.org")
SELECT 1 AS one FROM "customers" WHERE "customers"."email" = 'ida@example.org' LIMIT 1;

-- Refused: Order.where.not(id: Payment.select(:order_id))
SELECT "orders".* FROM "orders" WHERE "orders"."id" NOT IN (SELECT "payments"."order_id" FROM "payments");

-- Refused: Product.where("title ILIKE ?", "%saw%")
SELECT "products".* FROM "products" WHERE (title ILIKE '%saw%');
